#!/usr/bin/env bash
# Times the test whether patterns cover their type, through the proved bench_cover: what one more call takes of
# the processor's time, in seconds, without the making of the types and the patterns.
#   cases    SIZE cases of 32 payloads, and a pattern for each case that says nothing of its payloads
#   truths   the same, with a literal at each payload, so that the first case is not covered
#   nested   a chain of 8 enums of 4 cases, and the first SIZE of its forms as patterns
#   clauses  one case of 32 payloads, and SIZE patterns with three literals at places that are drawn
#   single   one case of SIZE truths and an enum of one case, which each pattern names: `true` at one of the truths,
#            or `false` at all
#   structs  an enum of two cases, of which each has a pattern, in a text with a chain of SIZE structs
#   pairs    one case of two groups of SIZE truths; each of the 4 SIZE patterns has two truths at distant places
# Usage: bench/cover.sh                      the list below
#        bench/cover.sh KIND SIZE [TURNS]    one of them, TURNS more calls; one more without it
set -eu
top=$(cd "$(dirname "$0")/.." && pwd)
program="$top/crates/bench_cover/out/bench_cover"

# It is proved and built first, where that was not done.
(cd "$top/crates/bench_cover" && rt run -- cases 1 1) >/dev/null 2>&1 || true
if [ ! -x "$program" ]; then
    echo "bench_cover was not built: see rt run in crates/bench_cover" >&2
    exit 1
fi

# The least processor time of three runs, in seconds.
best() {
    local TIMEFORMAT=%U run
    for ((run = 0; run < 3; run++)); do
        { time "$program" "$@" >/dev/null; } 2>&1
    done | sort -n | head -n 1
}

# The seconds that a call takes, from the time of one call and that of TURNS more with it.
measure() {
    local kind=$1 size=$2 turns=$3 answer one more
    answer=$("$program" "$kind" "$size" 1)
    one=$(best "$kind" "$size" 1)
    more=$(best "$kind" "$size" $((turns + 1)))
    awk -v what="$kind $size" -v answer="$answer" -v one="$one" -v more="$more" -v turns="$turns" \
        'BEGIN { printf "%s: %.5f s a call, %s\n", what, (more - one) / turns, answer }'
}

if [ $# -ge 2 ]; then
    measure "$1" "$2" "${3:-1}"
    exit 0
fi
measure cases 256 20
measure truths 256 200
measure nested 100 1000
measure nested 1000 10
measure clauses 20 100
measure clauses 60 100
measure clauses 100 20
measure clauses 136 2
measure clauses 200 2
measure clauses 384 2
measure single 24 1000
measure structs 999 1000
measure pairs 8 20
measure pairs 10 5
measure pairs 12 1
measure pairs 14 1
