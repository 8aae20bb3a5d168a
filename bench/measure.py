"""Runs a command three times and prints its least seconds by the clock, its least seconds of the processor, the most
memory of a run in KiB (0 without GNU time), and its status. What it prints itself is thrown away.

Usage: measure.py COMMAND..
"""

import os
import pathlib
import subprocess
import sys
import tempfile
import time

RUNS = 3
GNU_TIME = "/usr/bin/time"


def measure(command):
    # A process counts the memory of what it was forked from: this one's is larger than GNU time's.
    with tempfile.NamedTemporaryFile("r") as said:
        words = [GNU_TIME, "-o", said.name, "-f", "%M", *command] if os.access(GNU_TIME, os.X_OK) else command
        begun = time.perf_counter()
        started = subprocess.Popen(words, stdout=subprocess.DEVNULL, stderr=subprocess.DEVNULL)
        _, status, used = os.wait4(started.pid, 0)
        clock = time.perf_counter() - begun
        started.returncode = os.waitstatus_to_exitcode(status)
        lines = pathlib.Path(said.name).read_text().split()
    return clock, used.ru_utime + used.ru_stime, int(lines[-1]) if lines else 0, started.returncode


if __name__ == "__main__":
    if not sys.argv[1:]:
        sys.exit(__doc__)
    clocks, seconds, memories, statuses = zip(*(measure(sys.argv[1:]) for _ in range(RUNS)))
    print(f"{min(clocks):.4f} {min(seconds):.4f} {max(memories)} {max(statuses)}")
