#!/usr/bin/env bash
# Builds a guest from C or Rust, for WebAssembly 1.0, without floating point where the source has none:
#     examples/guests/build.sh hello/hello.c hello/hello.wasm
#     examples/guests/build.sh hello/hello.rs hello.wasm
# What each flag is for: README.md. Status 3: the compiler, or its target, isn't installed. RUSTC names another rustc.
set -eu
here=$(cd -P -- "$(dirname -- "${BASH_SOURCE[0]}")" && pwd)

missing() {
    echo "build.sh: $1" >&2
    exit 3
}

[ $# -eq 2 ] || { echo 'usage: examples/guests/build.sh SOURCE MODULE' >&2; exit 2; }
case $1 in
*.c)
    command -v clang >/dev/null || missing 'clang is not installed (Debian: apt-get install clang lld)'
    command -v wasm-ld >/dev/null || missing 'wasm-ld, the linker of LLVM, is not installed (Debian: apt-get install lld)'
    clang --target=wasm32 -mcpu=mvp -std=c11 -Wall -Wextra -O2 -nostdlib -ffreestanding -I "$here" \
        -Wl,--no-entry -Wl,--strip-all -o "$2" "$1"
    ;;
*.rs)
    rustc=${RUSTC:-rustc}
    command -v "$rustc" >/dev/null || missing "$rustc is not installed"
    libraries=$("$rustc" --print sysroot)/lib/rustlib
    minor=$("$rustc" --version | sed 's/^rustc 1\.\([0-9]*\).*/\1/')
    target=wasm32v1-none
    # Up to Rust 1.69 the core of the other target is WebAssembly 1.0 too.
    if ! [ -d "$libraries/$target" ] && [ "$minor" -lt 70 ]; then target=wasm32-unknown-unknown; fi
    [ -d "$libraries/$target" ] ||
        missing "$rustc has no target $target here: rustup target add wasm32v1-none (Rust 1.84 or later), or RUSTC=/usr/bin/rustc of a Debian 12 with rustc and libstd-rust-dev-wasm32"
    "$rustc" --edition 2021 --target "$target" --crate-type cdylib -C opt-level=s -C panic=abort -C lto=fat \
        -C strip=symbols -o "$2" "$1"
    ;;
*) missing "$1 is neither C nor Rust" ;;
esac
chmod a-x "$2"
