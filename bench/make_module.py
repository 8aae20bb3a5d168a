"""Writes a module of the profile to standard output: main, FUNCTIONS functions of PIECES sums, loads, stores,
calls and blocks each, and four data segments. It is valid by Core 1.0, and all numbers are spelled shortest.

Usage: make_module.py FUNCTIONS PIECES SEED
"""

import random
import sys


def unsigned(n):
    out = bytearray()
    while n >= 128:
        out.append(n % 128 + 128)
        n //= 128
    out.append(n)
    return bytes(out)


def signed(n):
    out = bytearray()
    while not -64 <= n < 64:
        out.append(n % 128 + 128)
        n //= 128
    out.append(n % 128)
    return bytes(out)


def listed(parts):
    return unsigned(len(parts)) + b"".join(parts)


def sized(content):
    return unsigned(len(content)) + content


def section(number, content):
    return bytes([number]) + sized(content)


def piece(dice, functions):
    """Instructions that leave the stack as it was. Local 0 is an i32, and local 1 an i64."""
    constant = signed(dice.randrange(-(2**63), 2**63))
    offset = unsigned(dice.randrange(4096))
    callee = unsigned(1 + dice.randrange(functions))
    return dice.choice(
        [
            # local 1 = local 1 * constant + local 1
            b"\x20\x01\x42" + constant + b"\x7e\x20\x01\x7c\x21\x01",
            # local 1 = load, and a store of it elsewhere
            b"\x20\x00\x29\x03" + offset + b"\x21\x01\x20\x00\x20\x01\x37\x03" + offset,
            # a block that is left where local 0 is zero
            b"\x02\x40\x20\x00\x45\x0d\x00\x20\x00\x41\x01\x6b\x21\x00\x0b",
            # an if with two sides
            b"\x20\x01\x50\x04\x7e\x42\x01\x05\x42\x7f\x0b\x21\x01",
            # local 0 = the callee of local 0 and local 1
            b"\x20\x00\x20\x01\x10" + callee + b"\x21\x00",
        ]
    )


def function(dice, functions, pieces):
    body = b"".join(piece(dice, functions) for _ in range(pieces))
    return sized(listed([]) + body + b"\x20\x00\x0b")


def module(functions, pieces, seed):
    dice = random.Random(seed)
    types = [b"\x60\x00\x00", b"\x60" + listed([b"\x7f", b"\x7e"]) + listed([b"\x7f"])]
    named = [b"main"] + [b"function %d" % i for i in range(1, functions)]
    exports = [sized(name) + b"\x00" + unsigned(i) for i, name in enumerate(named)]
    codes = [function(dice, functions, pieces) for _ in range(functions)]
    segments = [
        b"\x00\x41" + signed(16384 * i) + b"\x0b" + sized(dice.randbytes(20 * pieces)) for i in range(4)
    ]
    return b"".join(
        [
            b"\x00asm\x01\x00\x00\x00",
            section(1, listed(types)),
            section(3, listed([b"\x00"] + [b"\x01"] * functions)),
            section(5, listed([b"\x00\x02"])),
            section(7, listed(exports)),
            section(10, listed([sized(listed([]) + b"\x0b")] + codes)),
            section(11, listed(segments)),
        ]
    )


if __name__ == "__main__":
    sys.stdout.buffer.write(module(*map(int, sys.argv[1:])))
