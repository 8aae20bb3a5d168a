#!/usr/bin/env bash
# Times `check` as a whole process: on generated programs of 500, 1,000 and 2,000 functions, with how the time grows
# from one size to the next, and on texts at what the limits allow (bench/make_program.py). Each figure is the least of
# three runs, by the clock and of the processor, with the most memory. Where `rustc` is installed, it takes the same
# programs in Rust as far as its metadata, which is what its own ownership checker needs.
# Usage: bench/check.sh PROGRAM      as crates/swiftown/out/swiftown
set -eu
top=$(cd "$(dirname "$0")/.." && pwd)
if [ $# != 1 ] || ! program=$(realpath -e "$1"); then
    echo "usage: bench/check.sh PROGRAM" >&2
    exit 2
fi
make="$top/bench/make_program.py"
work=$(mktemp -d)
trap 'rm -rf "$work"' EXIT
cd "$work"

# A line with what a command takes: `row NAME FILE STATUS COMMAND..`. It leaves the seconds of the processor in $cpu.
row() {
    local name=$1 file=$2 wanted=$3 clock memory status
    shift 3
    read -r clock cpu memory status < <(python3 "$top/bench/measure.py" "$@")
    printf '%-22s %9d bytes %8.3f s %8.3f s of the processor %6d MiB\n' \
        "$name" "$(wc -c <"$file")" "$clock" "$cpu" $((memory / 1024))
    if [ "$status" != "$wanted" ]; then
        echo "  it ended with status $status, and not $wanted"
    fi
}

# The exponent by which the time grows where a text becomes twice as long.
growth() {
    awk -v name="$1" -v one="$2" -v two="$3" \
        'BEGIN { if (one > 0 && two > 0) printf "growth from %s: exponent %.2f\n", name, log(two / one) / log(2) }'
}

sizes=(500 1000 2000)
ours=() theirs=()
for size in "${sizes[@]}"; do
    python3 "$make" "$size" 1 >"$size.swift"
    row "$size functions" "$size.swift" 0 "$program" check "$size.swift"
    ours+=("$cpu")
done
growth "500 to 1000" "${ours[0]}" "${ours[1]}"
growth "1000 to 2000" "${ours[1]}" "${ours[2]}"

# Those that are refused are so by the limit on slots, and with a line for each finding.
for most in text:0 body:0 bodies:0 module:0 locals:1 findings:1; do
    name=${most%:*}
    python3 "$make" --most "$name" >"$name.swift"
    row "most $name" "$name.swift" "${most#*:}" "$program" check "$name.swift"
done
"$program" check locals.swift 2>&1 | head -n 1 || true
echo "$("$program" check findings.swift 2>&1 | wc -l || true) lines of findings"

if ! command -v rustc >/dev/null; then
    echo "rustc is not installed, so there is nothing to compare with"
    exit 0
fi
for at in "${!sizes[@]}"; do
    size=${sizes[at]}
    python3 "$make" "$size" 1 --rust >"rust$size.rs"
    row "rustc, $size functions" "rust$size.rs" 0 \
        rustc --edition 2021 --emit=metadata --crate-type lib --out-dir "$work" "rust$size.rs"
    awk -v ours="${ours[at]}" -v theirs="$cpu" 'BEGIN { if (ours > 0) printf "ratio: %.2f\n", theirs / ours }'
done
