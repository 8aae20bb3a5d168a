#!/usr/bin/env bash
# Compares which modules our reader accepts with wabt's wasm-validate, and is skipped where that is missing:
#   - each module that our writer wrote, of valid code, has to be accepted by both;
#   - of variants of them with one byte changed, those that wasm-validate refuses have to be refused by our
#     reader too, unless the refusal is of the code's types and indices or of an alignment, which a reader does
#     not look at.
# The other way round nothing is asked: the profile is narrower than what wasm-validate takes. Such variants are
# counted.
# Usage: bench/compare_wabt.sh [TURNS]   with so many variants of each module; 100 without it.
set -eu
top=$(cd "$(dirname "$0")/.." && pwd)
turns=${1:-100}
reader="$top/crates/bench_modules/out/bench_modules"
machine="$top/crates/bench_machine/out/bench_machine"
if ! command -v wasm-validate >/dev/null; then
    echo "skipped: wasm-validate (package wabt) is not installed"
    exit 0
fi

# They are proved and built first, where that was not done.
(cd "$top/crates/bench_modules" && rt run -- write data/main.wasm 1) >/dev/null 2>&1 || true
(cd "$top/crates/bench_machine" && rt run -- run 1) >/dev/null 2>&1 || true
if [ ! -x "$reader" ] || [ ! -x "$machine" ]; then
    echo "bench_modules or bench_machine was not built: see rt run in their folders" >&2
    exit 1
fi

work=$(mktemp -d)
trap 'rm -rf "$work"' EXIT
mkdir "$work/written" "$work/variants"
"$machine" bytes 10 >"$work/written/0.wasm"
for seed in 1 2 3 4; do
    python3 "$top/bench/make_module.py" $((4 * seed)) 10 "$seed" >"$work/made.wasm"
    "$reader" copy "$work/made.wasm" 1 >"$work/written/$seed.wasm"
done

different=0
# What wasm-validate says of code that is well spelled.
code_errors='type mismatch|out of range|invalid depth|alignment'

is_read() {
    [ "$("$reader" read "$1" 1)" = module ]
}

for module in "$work"/written/*.wasm; do
    if ! is_read "$module" || ! wasm-validate "$module"; then
        echo "a module that was written is not accepted by both: $(basename "$module")"
        different=$((different + 1))
    fi
done

both=0 neither=0 code=0 narrower=0
for module in "$work"/written/*.wasm; do
    seed=$(basename "$module" .wasm)
    python3 "$top/bench/make_variants.py" "$module" "$work/variants" "$turns" "$seed"
    for variant in "$work"/variants/*.wasm; do
        error=$(wasm-validate "$variant" 2>&1) && accepted=yes || accepted=no
        is_read "$variant" && read=yes || read=no
        case $read$accepted in
            yesyes) both=$((both + 1)) ;;
            nono) neither=$((neither + 1)) ;;
            noyes) narrower=$((narrower + 1)) ;;
            yesno)
                if grep -Eq "$code_errors" <<<"$error"; then
                    code=$((code + 1))
                else
                    echo "wasm-validate alone refuses a variant of module $seed: $error"
                    different=$((different + 1))
                fi
                ;;
        esac
    done
done
echo "variants: $both read by both, $neither by neither, $code with invalid code alone, $narrower outside the profile"
[ "$different" = 0 ] && echo "no difference"
