#!/usr/bin/env bash
# Compares what `run` prints of generated programs with what the same programs print in Rust, where `rustc` is
# installed: values move, are taken apart and end in both at the same moments (bench/make_program.py).
# Usage: bench/compare_rust.sh PROGRAM [SEEDS]   with so many programs of 200 functions; 10 without it
set -eu
top=$(cd "$(dirname "$0")/.." && pwd)
if [ $# -lt 1 ] || ! program=$(realpath -e "$1"); then
    echo "usage: bench/compare_rust.sh PROGRAM [SEEDS]" >&2
    exit 2
fi
seeds=${2:-10}
if ! command -v rustc >/dev/null; then
    echo "skipped: rustc is not installed"
    exit 0
fi
work=$(mktemp -d)
trap 'rm -rf "$work"' EXIT
cd "$work"

different=0 lines=0
for ((seed = 1; seed <= seeds; seed++)); do
    python3 "$top/bench/make_program.py" 200 "$seed" >made.swift
    python3 "$top/bench/make_program.py" 200 "$seed" --rust >made.rs
    rustc --edition 2021 -o made made.rs
    ./made >theirs
    "$program" run made.swift >ours || true
    lines=$((lines + $(wc -l <theirs)))
    if ! cmp theirs ours; then
        echo "seed $seed: the outputs differ"
        different=$((different + 1))
    fi
done
echo "$seeds programs, $lines lines of output, $different differ"
[ "$different" = 0 ]
