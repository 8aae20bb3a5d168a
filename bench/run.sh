#!/usr/bin/env bash
# Times `run` as a whole process on a loop of TURNS turns (ten million without it), each of which hands a struct to a
# call and takes one back (bench/loop.swift): by the clock and of the processor, the least of three runs, with the most
# memory. Beside it stand the same program in Python (bench/loop.py) and, where `node` is installed, the module that
# `build` makes, on node by examples/host.js.
# Usage: bench/run.sh PROGRAM [TURNS]      with PROGRAM as crates/swiftown/out/swiftown
set -eu
top=$(cd "$(dirname "$0")/.." && pwd)
if [ $# -lt 1 ] || ! program=$(realpath -e "$1"); then
    echo "usage: bench/run.sh PROGRAM [TURNS]" >&2
    exit 2
fi
turns=${2:-10000000}
text="$top/bench/loop.swift"
work=$(mktemp -d)
trap 'rm -rf "$work"' EXIT
module="$work/loop.wasm"

# A line with what a command takes, once it was seen to print what it has to: `row NAME COMMAND..`.
row() {
    local name=$1 clock cpu memory status printed
    shift
    printed=$("$@") || true
    if [ "$printed" != "$((turns * (turns - 1) / 2)) $turns" ]; then
        echo "$name: WRONG: $printed"
        return
    fi
    read -r clock cpu memory status < <(python3 "$top/bench/measure.py" "$@")
    printf '%-24s %8.3f s %8.3f s of the processor %6d MiB\n' "$name" "$clock" "$cpu" $((memory / 1024))
}

row "run" "$program" run "$text" "$turns"
row "python3" python3 "$top/bench/loop.py" "$turns"
if ! command -v node >/dev/null; then
    echo "node is not installed, so the module is not run by it"
    exit 0
fi
"$program" build "$text" -o "$module" >/dev/null
row "the module on node" node "$top/examples/host.js" "$module" "$turns"
