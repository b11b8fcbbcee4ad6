#!/bin/sh
# Builds foldcairn.wasm from an exported workspace by Debian's rustc, without network: tools/rust-sysroot.sh makes core and alloc.
# Usage: tools/wasm.sh WORKSPACE FOLDER [PROFILE]. It writes foldcairn.wasm and foldcairn.js into FOLDER, which keeps what is built for a next
# time. PROFILE is release, or checked for a module that stops where a sum wraps. Tested, not proved.
set -eu
top=$(cd "$(dirname "$0")/.." && pwd)
workspace=$(cd "${1:?the workspace}" && pwd)
mkdir -p "${2:?the folder}"
folder=$(cd "$2" && pwd)
profile=${3:-release}
target=wasm32-unknown-unknown
"$top/tools/rust-sysroot.sh" "$target" "$folder/sysroot" 3
cd "$workspace/wasm"
RUSTC=/usr/bin/rustc RUSTFLAGS="-D warnings --sysroot $folder/sysroot -C linker=wasm-ld -C linker-flavor=wasm-ld -C strip=symbols" \
    /usr/bin/cargo build --offline --quiet --config 'source.crates-io.replace-with="debian"' \
    --config 'source.debian.directory="/usr/share/cargo/registry"' --target "$target" --profile "$profile" --target-dir "$folder/built"
cp "$folder/built/$target/$profile/foldcairn.wasm" foldcairn.js "$folder/"
