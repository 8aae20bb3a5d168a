#!/usr/bin/env bash
# Runs PROGRAM on the texts in this folder, and compares its answers with the file NAME.expected beside each:
#   examples/NAME.swift           `check` answers `accepted`, and `run` without input prints these lines
#   examples/refused/NAME.swift   `check` refuses the text, with these lines on the standard error
# Prints what differs, and at last 'N passed, M failed'; ends with status 1 where something failed.
# Usage: examples/check.sh PROGRAM      as examples/check.sh ./swiftown
set -u
if [ $# != 1 ] || ! program=$(realpath -e "$1"); then
    echo "usage: examples/check.sh PROGRAM" >&2
    exit 2
fi
# The lines name the texts as seen from the top.
cd "$(dirname "$0")/.." || exit 2
work=$(mktemp -d)
trap 'rm -rf "$work"' EXIT
passed=0 failed=0

# Runs the program with these words: `answers STATUS OUT ERR WORD..`, with the files of what it has to print.
answers() {
    local status=$1 out=$2 err=$3 got
    shift 3
    "$program" "$@" >"$work/out" 2>"$work/err"
    got=$?
    if [ "$got" = "$status" ] && cmp -s "$out" "$work/out" && cmp -s "$err" "$work/err"; then
        passed=$((passed + 1))
    else
        failed=$((failed + 1))
        echo "$*: status $got, and not $status, or other lines (< are those that are wanted):"
        diff "$out" "$work/out"
        diff "$err" "$work/err"
    fi
}

echo accepted >"$work/accepted"
for text in examples/*.swift; do
    expected=${text%.swift}.expected
    [ -f "$expected" ] || continue
    answers 0 "$work/accepted" /dev/null check "$text"
    answers 0 "$expected" /dev/null run "$text"
done
for text in examples/refused/*.swift; do
    answers 1 /dev/null "${text%.swift}.expected" check "$text"
done
echo "$passed passed, $failed failed"
[ "$failed" = 0 ]
