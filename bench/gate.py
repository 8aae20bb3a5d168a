"""Times the gate: how much of the processor's time each crate takes.

Usage: gate.py sample FILE COMMAND..        runs COMMAND, as rt ci, and keeps in FILE what its processes take
       gate.py table FILE [FOLDER [PID]]    prints the table of such a file: of a gate over the checkout FOLDER, which
                                            is this one without it, with the edits of the rt that had this PID alone

FILE is a list in JSON. Each entry is a process: its folder, its first words, its seconds of the processor, its most
memory in bytes, when it was first and last seen, and whether --test is among its words.
"""

import json
import os
import pathlib
import re
import subprocess
import sys
import time

TICKS = os.sysconf("SC_CLK_TCK")
PAGE = os.sysconf("SC_PAGE_SIZE")
# Between two looks, and between two writes of the file, in seconds.
LOOK, WRITE = 0.2, 15
KINDS = ("proof", "tests", "edits")


def processes():
    """Returns for each process its parent, when it began, its memory and its seconds, its ended children included."""
    found = {}
    for entry in pathlib.Path("/proc").iterdir():
        if not entry.name.isdigit():
            continue
        try:
            fields = (entry / "stat").read_text().rpartition(")")[2].split()
        except OSError:
            # it has ended meanwhile
            continue
        seconds = sum(map(int, fields[11:15])) / TICKS
        found[int(entry.name)] = int(fields[1]), fields[19], int(fields[21]) * PAGE, seconds
    return found


def look(seen, top):
    """Notes what each process that top started has taken so far, with all that it started itself."""
    found = processes()
    children = {}
    for pid, (parent, *_) in found.items():
        children.setdefault(parent, []).append(pid)
    for pid in children.get(top, []):
        try:
            folder = os.readlink(f"/proc/{pid}/cwd")
            words = pathlib.Path(f"/proc/{pid}/cmdline").read_bytes().decode(errors="replace").split("\0")
        except OSError:
            continue
        seconds, memory, below = 0, 0, [pid]
        while below:
            each = below.pop()
            memory, seconds = max(memory, found[each][2]), seconds + found[each][3]
            below += children.get(each, [])
        now = time.time()
        entry = seen.setdefault((pid, found[pid][1]), ["", "", 0, 0, now, now, False])
        # a process has the words of rt until it becomes the command that it is to run
        entry[0], entry[1], entry[6] = folder, " ".join(words[:4]), "--test" in words
        entry[2], entry[3], entry[5] = max(entry[2], seconds), max(entry[3], memory), now


def sample(file, command):
    """Runs a command to its end and returns its status."""
    seen, written = {}, 0
    started = subprocess.Popen(command)
    while True:
        ended = started.poll() is not None
        look(seen, started.pid)
        if ended or time.time() - written > WRITE:
            new = pathlib.Path(f"{file}.new")
            new.write_text(json.dumps([*seen.values()]))
            new.replace(file)
            written = time.time()
        if ended:
            return started.returncode
        time.sleep(LOOK)


def place(entry, top, pid):
    """Returns the crate that a process worked for, and for what; None of other processes.
    rt ci proves a crate in its folder, tries an edit on a copy in a folder rt-edit-PID-.., and runs programs and tests
    from a folder rt-run-PID-..."""
    folder, words, is_test = entry[0], entry[1], entry[6]
    own = re.fullmatch(rf"(?:{re.escape(top)}|.*/rt-copy-[^/]*/repo)/crates/(\w+)", folder)
    if own:
        return own[1], "tests" if is_test or "_tests" in words else "proof"
    named = re.search(r"--crate-name (\w+)", words)
    if named and re.search(rf"/rt-edit-{pid or '[0-9]+'}-[^/]*$", folder):
        return named[1], "edits"
    ran = re.search(r"/rt-run-[^/]*/bin/(\w+?)(_tests)?(\.by-rattle)?(?= |$)", words)
    return (ran[1], "tests") if ran else None


def below_of(top):
    """Returns the crates with those that each stands on, lowest first."""
    lines = [it.partition(":") for it in pathlib.Path(top, "crates.txt").read_text().splitlines() if it[:1].isalpha()]
    names = {name for name, _, _ in lines}
    return {name: [it for it in below.split() if it in names] for name, _, below in lines}


def longest_chain(below, proofs):
    """Returns the chain of crates, each standing on the one before, whose proofs take longest one after another."""
    chains = {}
    for crate, parts in below.items():
        under = max((chains.get(it, (0, [])) for it in parts), default=(0, []))
        chains[crate] = under[0] + proofs.get(crate, 0), [*under[1], crate]
    return max(chains.values(), default=(0, []))


def table(file, top, pid):
    entries = json.loads(pathlib.Path(file).read_text())
    placed = [(place(it, top, pid), it) for it in entries]
    placed = [(where, it) for where, it in placed if where]
    crates = {}
    for (crate, kind), (_, _, seconds, memory, first, last, _) in placed:
        had = crates.setdefault(crate, {**dict.fromkeys(KINDS, 0), "memory": 0, "first": first, "last": last})
        had[kind] += seconds
        had["memory"] = max(had["memory"], memory)
        had["first"], had["last"] = min(had["first"], first), max(had["last"], last)
    if not crates:
        print(f"no process of a gate over {top} in {file}")
        return
    rows = []
    for name, it in crates.items():
        numbers = [it[kind] for kind in KINDS]
        rows.append((name, *numbers, sum(numbers), it["last"] - it["first"], it["memory"] / 2**20))
    rows.sort(key=lambda it: -it[4])
    print("Seconds of the processor; from the first to the last process of a crate; the most memory of one, in MiB.")
    print(f"{'crate':18}" + "".join(f"{it:>10}" for it in [*KINDS, "sum", "wall", "memory"]))
    for name, *numbers, memory in rows:
        print(f"{name:18}" + "".join(f"{it:10.1f}" for it in numbers) + f"{memory:10.0f}")
    sums = [sum(it[at] for it in rows) for at in range(1, 5)]
    wall = max(it["last"] for it in crates.values()) - min(it["first"] for it in crates.values())
    print(f"{'all':18}" + "".join(f"{it:10.1f}" for it in [*sums, wall]))
    below = below_of(top)
    seconds, chain = longest_chain(below, {name: it["proof"] for name, it in crates.items()})
    parts = [f"{it} {crates[it]['proof']:.0f}" for it in chain if it in crates]
    print(f"the longest chain of proofs takes {seconds:.0f} s of the processor: {', '.join(parts)}")
    lacking = [it for it in below if it not in crates]
    if lacking:
        print(f"not in this run: {' '.join(lacking)}")


if __name__ == "__main__":
    match sys.argv[1:]:
        case ["sample", file, *command] if command:
            sys.exit(sample(file, command))
        case ["table", file, *rest] if len(rest) <= 2:
            folder, number = [*rest, None, None][:2]
            table(file, os.path.abspath(folder or pathlib.Path(__file__).parents[1]), number)
        case _:
            sys.exit(__doc__)
