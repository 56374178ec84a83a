#!/usr/bin/env bash
# Builds the guests of this folder and checks them: those in C give the modules that are kept beside them, or others that
# `edge check` says the same of, where another compiler built them; float.c is told as float-used; a module that imports
# every call of edge.h is accepted. hello.rs is built where rustc has a target for it. It stands outside the gate, and is
# skipped where clang or wasm-ld is missing. EDGE names another program than the launcher.
set -eu
edge=$(readlink -e -- "${EDGE:-$(dirname -- "$0")/../../edge}") || { echo "${0##*/}: there is no program ${EDGE:-edge}" >&2; exit 1; }
cd "$(dirname -- "$0")"
for tool in clang wasm-ld; do
    if ! command -v "$tool" >/dev/null; then
        echo "skipped: no $tool"
        exit 0
    fi
done
work=$(mktemp -d)
trap 'rm -rf "$work"' EXIT

for source in */*.c; do
    # Programs of numbers/ are no guests, and have no modules.
    [ -f "${source%.c}.wasm" ] || continue
    ./build.sh "$source" "$work/guest.wasm"
    told=$("$edge" check "$work/guest.wasm")
    kept=$("$edge" check "${source%.c}.wasm")
    [ "$told" = "$kept" ] || { echo "$source: $told, and what is kept: $kept"; exit 1; }
    cmp -s "$work/guest.wasm" "${source%.c}.wasm" || echo "$source: this compiler's module differs from the kept one"
done

# Every call of the header.
{
    printf '#include "edge.h"\nvoid (*volatile call)(void);\nEDGE_START void start(void) {\n'
    tr -d '\n' <edge.h | grep -o 'EDGE_CALL("[^;]*;' | sed 's/.*[ )]\([a-z0-9_]*\)([^()]*);$/    call = (void (*)(void))\1;/'
    printf '}\n'
} >"$work/all.c"
./build.sh "$work/all.c" "$work/all.wasm"
told=$("$edge" check "$work/all.wasm")
calls=$(grep -c 'call = ' "$work/all.c")
[ "$told" = "ok functions 1 imports $calls pages 2" ] || { echo "edge.h, $calls calls: $told"; exit 1; }

./build.sh float.c "$work/float.wasm"
status=0
told=$("$edge" check "$work/float.wasm" 2>&1) || status=$?
[ "$status" = 4 ] && [ "${told#module: float-used at }" != "$told" ] || { echo "float.c: $status $told"; exit 1; }

status=0
./build.sh hello/hello.rs "$work/rust.wasm" || status=$?
case $status in
0)
    told=$("$edge" check "$work/rust.wasm")
    [ "${told#ok functions }" != "$told" ] || { echo "hello.rs: $told"; exit 1; }
    echo "guests: ok, $calls calls, C and Rust"
    ;;
3) echo "guests: ok, $calls calls, C; hello.rs wasn't built" ;;
*) exit 1 ;;
esac
