#!/bin/sh
# Builds both programs of an exported workspace for Linux on 64-bit Arm, over the C library alone, and asks them under QEMU for the same bytes
# as the stored programs (tests/same_bytes.py).
# Usage: tests/arm64.sh WORKSPACE FOLDER SEEDS. FOLDER keeps what is built for a next time. tools/setup-rust.sh --optional installs what it
# needs. Tested, not proved.
set -eu
top=$(cd "$(dirname "$0")/.." && pwd)
workspace=$(cd "${1:?the workspace}" && pwd)
mkdir -p "${2:?the folder}"
folder=$(cd "$2" && pwd)
target=aarch64-unknown-linux-gnu
built=$folder/built/$target/release
"$top/tools/rust-sysroot.sh" "$target" "$folder/sysroot" 3
(
    cd "$workspace"
    RUSTC=/usr/bin/rustc RUSTFLAGS="-D warnings --sysroot $folder/sysroot -C linker=aarch64-linux-gnu-gcc" \
        /usr/bin/cargo build --offline --quiet --config 'source.crates-io.replace-with="debian"' \
        --config 'source.debian.directory="/usr/share/cargo/registry"' --target "$target" --release --target-dir "$folder/built" \
        --features rattle_std/libc
)
for name in foldcairn foldcairn-plan; do
    printf '#!/bin/sh\nexec qemu-aarch64 -L /usr/aarch64-linux-gnu "%s" "$@"\n' "$built/$name" > "$folder/$name"
    chmod +x "$folder/$name"
done
exec "$("$top/tools/setup-python.sh" --print)" "$top/tests/same_bytes.py" "$folder/foldcairn" "$folder/foldcairn-plan" --random "${3:?the seeds}"
