#!/usr/bin/env bash
# Times `swiftown exec` as a whole process: on a module of some megabytes whose main does next to nothing, beside
# wabt's wasm-validate, and on the loop of bench/machine.sh, beside wabt's wasm-interp. Each figure is the least
# processor time of several runs, in seconds, the system's part included.
# Usage: bench/exec.sh [TURNS]   with 28 steps a turn of the loop; without it a hundred million steps.
set -eu
top=$(cd "$(dirname "$0")/.." && pwd)
turns=${1:-3571428}
runs=9
program="$top/crates/swiftown/out/swiftown"
maker="$top/crates/bench_machine/out/bench_machine"

# They are proved and built first, where that was not done.
"$top/swiftown" >/dev/null 2>&1 || true
(cd "$top/crates/bench_machine" && rt run -- run 1) >/dev/null 2>&1 || true
if [ ! -x "$program" ] || [ ! -x "$maker" ]; then
    echo "the program or bench_machine was not built: see ./swiftown, and rt run in crates/bench_machine" >&2
    exit 1
fi

work=$(mktemp -d)
trap 'rm -rf "$work"' EXIT
python3 "$top/bench/make_module.py" 1500 200 1 >"$work/large.wasm"
"$maker" bytes "$turns" >"$work/loop.wasm"

# The least processor time of some runs of a command.
best() {
    local TIMEFORMAT='%U %S' run
    for ((run = 0; run < runs; run++)); do
        { time "$@" >/dev/null 2>&1; } 2>&1
    done | awk '{ print $1 + $2 }' | sort -n | head -n 1
}

echo "exec of $(wc -c <"$work/large.wasm") bytes: $(best "$program" exec "$work/large.wasm") s"
if command -v wasm-validate >/dev/null; then
    echo "wasm-validate of them: $(best wasm-validate "$work/large.wasm") s"
fi
echo "exec of the loop: $(best "$program" exec "$work/loop.wasm") s"
if command -v wasm-interp >/dev/null; then
    echo "wasm-interp of it: $(best wasm-interp "$work/loop.wasm" --dummy-import-func --run-all-exports) s"
else
    echo "wasm-interp and wasm-validate (package wabt) are not installed, so there is nothing to compare with"
fi
