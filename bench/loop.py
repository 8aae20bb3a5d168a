"""The program of loop.swift in Python. Usage: loop.py TURNS"""

import sys


class Sum:
    __slots__ = ("total", "count")

    def __init__(self, total, count):
        self.total = total
        self.count = count


def add(sum, n):
    return Sum(sum.total + n, sum.count + 1)


def main():
    sum = Sum(0, 0)
    for n in range(int(sys.argv[1])):
        sum = add(sum, n)
    print(sum.total, sum.count)


main()
