#!/usr/bin/env bash
# Times the reader and the writer of modules, through the proved bench_modules, on a module of some megabytes
# that is made here: what TURNS more readings, and TURNS more writings, take of the processor's time. Beside
# them stands wabt's wasm-validate on the same file, where it is installed; it checks the types of the code
# too, and is timed with the start of its process. Last, where GNU time is installed, comes the most memory that
# the reading of 16 MiB of instructions of one byte takes.
# Usage: bench/modules.sh [FUNCTIONS]   with some 2,900 bytes a function; 1,500 without it, and at most 9,999.
set -eu
top=$(cd "$(dirname "$0")/.." && pwd)
functions=${1:-1500}
turns=10
program="$top/crates/bench_modules/out/bench_modules"

# It is proved and built first, where that was not done.
(cd "$top/crates/bench_modules" && rt run -- write data/main.wasm 1) >/dev/null 2>&1 || true
if [ ! -x "$program" ]; then
    echo "bench_modules was not built: see rt run in crates/bench_modules" >&2
    exit 1
fi

work=$(mktemp -d)
trap 'rm -rf "$work"' EXIT
module="$work/module.wasm"
python3 "$top/bench/make_module.py" "$functions" 200 1 >"$module"
size=$(wc -c <"$module")

# The least processor time of five runs of a command, in seconds.
best() {
    local TIMEFORMAT=%U run
    for ((run = 0; run < 5; run++)); do
        { time "$@" >/dev/null 2>&1; } 2>&1
    done | sort -n | head -n 1
}

# Megabytes a second, from the time of one turn and that of the others with it.
speed() {
    awk -v name="$1" -v one="$2" -v more="$3" -v size="$size" -v turns="$turns" \
        'BEGIN { if (more > one) printf "%s: %.1f MB/s\n", name, size * turns / (more - one) / 1000000 }'
}

echo "$size bytes: $("$program" read "$module" 1)"
speed read "$(best "$program" read "$module" 1)" "$(best "$program" read "$module" $((turns + 1)))"
speed write "$(best "$program" write "$module" 1)" "$(best "$program" write "$module" $((turns + 1)))"
if [ -x /usr/bin/time ]; then
    nops="$work/nops.wasm"
    python3 "$top/bench/make_nops.py" 16 >"$nops"
    kibibytes=$(/usr/bin/time -f %M "$program" read "$nops" 1 2>&1 >/dev/null)
    awk -v kibibytes="$kibibytes" 'BEGIN { printf "read of 16 MiB of nop: %d MiB of memory at most\n", kibibytes / 1024 }'
fi
if ! command -v wasm-validate >/dev/null; then
    echo "wasm-validate (package wabt) is not installed, so there is nothing to compare with"
    exit 0
fi
wasm-validate "$module"
awk -v size="$size" -v once="$(best wasm-validate "$module")" \
    'BEGIN { if (once > 0) printf "wasm-validate: %.1f MB/s\n", size / once / 1000000 }'
