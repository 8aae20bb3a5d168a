"""Writes a module of the profile to standard output: an empty main, and MEBIBYTES functions of a mebibyte of `nop`
each, since no code has more instructions for its bytes. It is valid by Core 1.0.

Usage: make_nops.py MEBIBYTES
"""

import sys

from make_module import listed, section, sized


def module(functions):
    bodies = [b""] + [b"\x01" * 2**20] * functions
    return b"\0asm\1\0\0\0" + b"".join(
        [
            section(1, listed([b"\x60\0\0"])),
            section(3, listed([b"\0"] * len(bodies))),
            section(7, listed([b"\x04main\0\0"])),
            section(10, listed([sized(listed([]) + body + b"\x0b") for body in bodies])),
        ]
    )


if __name__ == "__main__":
    sys.stdout.buffer.write(module(int(sys.argv[1])))
