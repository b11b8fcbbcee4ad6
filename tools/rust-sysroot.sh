#!/bin/sh
# Builds Rust's core and alloc for a target without an operating system from Debian's sources of them (rust-web-src), by Debian's rustc:
# it has the library of this machine alone. Whoever has rustup takes `rustup target add` in place of it.
# Usage: tools/rust-sysroot.sh TARGET FOLDER LEVEL, where LEVEL is rustc's opt-level. FOLDER is then a sysroot: rustc --sysroot FOLDER.
# What is there already is kept. Tested, not proved.
set -eu
target=${1:?a target of rustc} folder=${2:?the folder} level=${3:?a level}
# The newest of the sources that are installed is that of rustc.
library=$(find /usr/src -maxdepth 2 -path '/usr/src/rustc-*/library' | sort -V | tail -n 1)
out=$folder/lib/rustlib/$target/lib
mkdir -p "$out"
# The library uses what stable Rust has not, and asks for this.
export RUSTC_BOOTSTRAP=1

# crate NAME WORD..: builds a crate of the library, unless it is there.
crate() {
    name=$1
    shift
    [ -e "$out/lib$name.rlib" ] || /usr/bin/rustc --edition 2024 --crate-type rlib --crate-name "$name" --target "$target" \
        -C opt-level="$level" -C panic=abort -C codegen-units=16 -Z force-unstable-if-unmarked --cap-lints allow --out-dir "$out" -L "$out" "$@"
}

crate core "$library/core/src/lib.rs"
crate compiler_builtins --cfg 'feature="compiler-builtins"' --cfg 'feature="mem"' --cfg 'feature="default"' --cfg optimizations_enabled \
    --extern core="$out/libcore.rlib" "$library/compiler-builtins/compiler-builtins/src/lib.rs"
crate alloc --extern core="$out/libcore.rlib" --extern compiler_builtins="$out/libcompiler_builtins.rlib" "$library/alloc/src/lib.rs"
