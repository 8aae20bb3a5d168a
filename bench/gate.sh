#!/usr/bin/env bash
# Measures what the gate takes of the processor's time, crate by crate: runs `rt ci` with these words at the top of the
# repository, looks at its processes meanwhile, and prints a table of the crates (proof, tests and programs, edits that
# the prover must refuse), the time by the clock and the longest chain of proofs. Ends with the status of `rt ci`.
# The file of what was seen is named at the end; `bench/gate.py table` prints its table again.
# Usage: bench/gate.sh [WORD..]      bench/gate.sh --anew from nothing, whatever earlier runs passed here
set -u
top=$(cd "$(dirname "$0")/.." && pwd)
file=$(mktemp --suffix .json)
cd "$top" || exit 2
python3 bench/gate.py sample "$file" rt ci "$@"
status=$?
python3 bench/gate.py table "$file" "$top"
echo "seen: $file"
exit "$status"
