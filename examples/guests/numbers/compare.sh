#!/usr/bin/env bash
# Compiles each program of this folder for WebAssembly and natively, and compares the numbers that they tell. It stands
# outside the gate, and is skipped where clang or wasm-ld is missing. The guests run on module_machine, in a program that is
# written to a temporary folder beside copies of the crates and tried there (rt try), or proved first (--prove).
set -eu
here=$(cd "$(dirname "$0")" && pwd)
cd "$here/../../.."
for tool in clang wasm-ld; do
    if ! command -v "$tool" >/dev/null; then
        echo "skipped: no $tool"
        exit 0
    fi
done
folder=$(mktemp -d)
trap 'rm -rf "$folder"' EXIT
runner="$folder/crates/guest_runner"
mkdir -p "$runner/src" "$runner/specs" "$runner/proofs"
needed="items basics stacks wasm_types wasm_code wasm_reader wasm_validate wasm_accept wasm_num wasm_memory wasm_meaning wasm_sound wasm_jumps wasm_flat wasm_machine wasm_instance module_machine"
for name in $needed; do
    cp -r "crates/$name" "$folder/crates/$name"
    grep "^$name\( [a-z_=0-9]*\)*:" crates.txt >>"$folder/crates.txt"
done
echo 'guest_runner: wasm_types wasm_validate wasm_accept module_machine' >>"$folder/crates.txt"
cp "$here/program" "$runner/src/main.rt"
touch "$runner/specs/Lib.antt" "$runner/proofs/Lib.antt"
cp HANDLES "$folder"
how=try
[ "${1-}" != --prove ] || how=run
status=0
for source in "$here"/*.c; do
    name=$(basename "$source" .c)
    clang --target=wasm32 -mcpu=mvp -O2 -nostdlib -ffreestanding -Wl,--no-entry -o "$folder/$name.wasm" "$source"
    clang -O1 -o "$folder/$name" "$source"
    "$folder/$name" >"$folder/wanted"
    cp "$folder/$name.wasm" "$runner/stdin"
    (cd "$runner" && rt "$how" <stdin 2>log >out.txt) || { cat "$runner/log"; exit 1; }
    sed -n '/^returned$/q;p' "$runner/out.txt" >"$folder/told"
    if cmp -s "$folder/wanted" "$folder/told"; then
        echo "$name: $(wc -l <"$folder/wanted") numbers, $(tail -1 "$runner/out.txt") instructions"
    else
        echo "$name: other numbers than natively"
        diff "$folder/wanted" "$folder/told" | head -5
        status=1
    fi
done
exit $status
