#!/usr/bin/env bash
# Times `build` as a whole process: on generated programs of 500, 1,000 and 2,000 functions, with how the time grows
# from one size to the next, and on accepted texts at what the limits allow (bench/make_program.py). Each figure is the
# least of three runs, by the clock and of the processor, with the most memory. Beside it stand the bytes of the module,
# in all and for each line of the source that is not empty and no comment, and whether wabt's `wasm-validate` or, where
# that is missing, `node` takes the module, if one of them is installed.
# Usage: bench/build.sh PROGRAM           the list below
#        bench/build.sh PROGRAM module    the text whose module is longest; building it may take gigabytes of memory
set -eu
top=$(cd "$(dirname "$0")/.." && pwd)
if [ $# -lt 1 ] || [ $# -gt 2 ] || [ "${2:-module}" != module ] || ! program=$(realpath -e "$1"); then
    echo "usage: bench/build.sh PROGRAM [module]" >&2
    exit 2
fi
make="$top/bench/make_program.py"
work=$(mktemp -d)
trap 'rm -rf "$work"' EXIT
cd "$work"

validity() {
    local valid='require("fs").readFileSync(process.argv[1])'
    if command -v wasm-validate >/dev/null; then
        if wasm-validate "$1"; then echo "valid"; else echo "NOT VALID"; fi
    elif command -v node >/dev/null; then
        node -e "console.log(WebAssembly.validate($valid) ? 'valid' : 'NOT VALID')" "$1"
    else
        echo "not validated"
    fi
}

# A line with what the building of a file takes: `row NAME FILE`. It leaves the seconds of the processor in $cpu.
row() {
    local name=$1 file=$2 clock memory status lines size
    rm -f made.wasm
    read -r clock cpu memory status < <(python3 "$top/bench/measure.py" "$program" build "$file" -o made.wasm)
    printf '%-16s %8.3f s %8.3f s of the processor %6d MiB' "$name" "$clock" "$cpu" $((memory / 1024))
    if [ "$status" != 0 ] || [ ! -e made.wasm ]; then
        echo ", NOT BUILT: status $status"
        return
    fi
    lines=$(grep -cvE '^ *(//.*)?$' "$file")
    size=$(wc -c <made.wasm)
    printf ' %9d bytes, %d a line, %s\n' "$size" $((size / lines)) "$(validity made.wasm)"
}

growth() {
    awk -v name="$1" -v one="$2" -v two="$3" \
        'BEGIN { if (one > 0 && two > 0) printf "growth from %s: exponent %.2f\n", name, log(two / one) / log(2) }'
}

if [ $# = 2 ]; then
    python3 "$make" --most module >module.swift
    row "most module" module.swift
    exit 0
fi
times=()
for size in 500 1000 2000; do
    python3 "$make" "$size" 1 >"$size.swift"
    row "$size functions" "$size.swift"
    times+=("$cpu")
done
growth "500 to 1000" "${times[0]}" "${times[1]}"
growth "1000 to 2000" "${times[1]}" "${times[2]}"
for name in text body bodies; do
    python3 "$make" --most "$name" >"$name.swift"
    row "most $name" "$name.swift"
done
