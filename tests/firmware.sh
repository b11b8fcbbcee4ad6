#!/bin/sh
# Builds examples/firmware of an exported workspace for a Cortex-M4, by Debian's rustc and linker, and has QEMU play each node of recorded
# logs on it: each order has to be that of the log (tests/firmware.py). It says how large the node is in flash.
# Usage: tests/firmware.sh WORKSPACE FOLDER few | all. FOLDER keeps what is built for a next time. `few` are ten logs, and `all` are those of
# all examples and worked scenarios. Tested, not proved.
set -eu
top=$(cd "$(dirname "$0")/.." && pwd)
workspace=$(cd "${1:?the workspace}" && pwd)
mkdir -p "${2:?the folder}"
folder=$(cd "$2" && pwd)
which=${3:?few or all}
target=thumbv7em-none-eabi
built=$folder/built/$target/release
"$top/tools/rust-sysroot.sh" "$target" "$folder/sysroot" s
(
    cd "$workspace/firmware"
    RUSTC=/usr/bin/rustc RUSTFLAGS="-D warnings --sysroot $folder/sysroot -C linker=ld.lld -C linker-flavor=ld.lld -C link-arg=-T$PWD/link.x \
        -C target-cpu=cortex-m4" /usr/bin/cargo build --offline --quiet --config 'source.crates-io.replace-with="debian"' \
        --config 'source.debian.directory="/usr/share/cargo/registry"' --target "$target" --release --target-dir "$folder/built"
)
python=$("$top/tools/setup-python.sh" --print)
size -A "$built/registers" | awk '$1 == ".text" { print "flash of a node over registers: " $2 " bytes" }'
exec "$python" "$top/tests/firmware.py" "$built/replay" "$which"
