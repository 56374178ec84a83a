#!/usr/bin/env bash
# Makes the modules of this folder anew, by the program `example_modules`, which is built where it is missing or older
# than its sources:
#     examples/make.sh
set -eu
cd "$(dirname "$0")"
crate=../crates/example_modules
# `rt run` proves, builds and runs the program, which without a name answers its usage: so that tells that it was built.
log=$(cd "$crate" && rt run </dev/null 2>&1) || true
case $log in
*"usage: example_modules "*) ;;
*)
    printf '%s\n' "$log" | tail -n 20 >&2
    echo "make.sh: the program was not built" >&2
    exit 1
    ;;
esac
for name in smallest hello; do
    "$crate/out/example_modules" "$name" >"$name.wasm.new"
    mv "$name.wasm.new" "$name.wasm"
    echo "$name.wasm: $(wc -c <"$name.wasm") bytes"
done
