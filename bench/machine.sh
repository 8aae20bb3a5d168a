#!/usr/bin/env bash
# Times our machine beside wabt's wasm-interp on one module: a loop of sums, calls and accesses to memory.
# Prints the best time of several runs of each, in seconds of the processor, and how many times as fast ours is.
# Usage: bench/machine.sh [TURNS]   with 28 steps a turn; without it ten million steps.
set -eu
top=$(cd "$(dirname "$0")/.." && pwd)
turns=${1:-357142}
runs=5
program="$top/crates/bench_machine/out/bench_machine"

# It is proved and built first, where that was not done; its run here does one turn.
(cd "$top/crates/bench_machine" && rt run -- run 1) >/dev/null 2>&1 || true
if [ ! -x "$program" ]; then
    echo "bench_machine was not built: see rt run in crates/bench_machine" >&2
    exit 1
fi

work=$(mktemp -d)
trap 'rm -rf "$work"' EXIT
module="$work/module.wasm"
"$program" bytes "$turns" >"$module"

# The least processor time of some runs of a command, in seconds.
best() {
    local TIMEFORMAT=%U run
    for ((run = 0; run < runs; run++)); do
        { time "$@" >/dev/null 2>&1; } 2>&1
    done | sort -n | head -n 1
}

"$program" run "$turns" | tail -n 1
ours=$(best "$program" run "$turns")
echo "ours: $ours s"
if ! command -v wasm-interp >/dev/null; then
    echo "wasm-interp (package wabt) is not installed, so there is nothing to compare with"
    exit 0
fi
theirs=$(best wasm-interp "$module" --dummy-import-func --run-all-exports)
echo "wasm-interp: $theirs s"
awk -v ours="$ours" -v theirs="$theirs" 'BEGIN { if (ours > 0) printf "ratio: %.2f\n", theirs / ours }'
