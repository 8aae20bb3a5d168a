#!/usr/bin/env bash
# Times the lexer and the parser, each by itself, on a program of SIZE bytes (1 MiB without it), through the proved
# bench_text: what TURNS more readings of its tokens, or of its tree, take of the processor's time.
# Usage: bench/text.sh [SIZE]
set -eu
top=$(cd "$(dirname "$0")/.." && pwd)
size=${1:-1048000}
turns=20
program="$top/crates/bench_text/out/bench_text"

# It is proved and built first, where that was not done.
(cd "$top/crates/bench_text" && rt run -- lex 1000 1) >/dev/null 2>&1 || true
if [ ! -x "$program" ]; then
    echo "bench_text was not built: see rt run in crates/bench_text" >&2
    exit 1
fi

# The least processor time of five runs, in seconds.
best() {
    local TIMEFORMAT=%U run
    for ((run = 0; run < 5; run++)); do
        { time "$program" "$1" "$size" "$2" >/dev/null; } 2>&1
    done | sort -n | head -n 1
}

for part in lex parse; do
    one=$(best "$part" 1)
    more=$(best "$part" $((turns + 1)))
    awk -v part="$part" -v one="$one" -v more="$more" -v size="$size" -v turns="$turns" \
        'BEGIN { if (more > one) printf "%s: %.1f MB/s\n", part, size * turns / (more - one) / 1000000 }'
done
