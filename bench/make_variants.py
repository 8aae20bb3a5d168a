"""Writes TURNS files into FOLDER, each the module of FILE with one byte changed.

Usage: make_variants.py FILE FOLDER TURNS SEED
"""

import pathlib
import random
import sys

if __name__ == "__main__":
    file, folder, turns, seed = sys.argv[1:]
    bytes_before = pathlib.Path(file).read_bytes()
    dice = random.Random(int(seed))
    for turn in range(int(turns)):
        changed = bytearray(bytes_before)
        changed[dice.randrange(len(changed))] ^= dice.randrange(1, 256)
        pathlib.Path(folder, f"{turn}.wasm").write_bytes(changed)
