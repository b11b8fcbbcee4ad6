#!/bin/sh
# Installs what tests/export.sh and `make rust` need to build and run the proved sources as Rust, by Debian's packages alone:
# Debian's current rustc and cargo (rustc-web, cargo-web), the sources of Rust's core and alloc, from which they are built for
# WebAssembly and for a Cortex-M, the crates that stand for the toolchain's libraries, a linker, node and QEMU's boards. With
# --optional it also installs what only `make install-tests` uses: QEMU for programs of 64-bit Arm, and a linker for them.
# Nothing comes from rustup or crates.io: Debian puts the sources of its crates into /usr/share/cargo/registry.
#
# Usage: tools/setup-rust.sh [--check | --optional]
#
# Without a word it installs what is missing, by apt-get, as root or by sudo where sudo asks for no password. A second call finds
# all and installs nothing. With --check it installs nothing, and says what is missing. Status 0 if all is there at the end; 1 if
# something is missing, and then the packages are named on standard error; 2 for other words. Debian's older rustc, which has the
# same commands, is replaced. Tested, not proved.
set -u

# A line for each package: a file that it installs, by a pattern of which one match is enough, or a command, and the package.
needed='
/usr/bin/rustc rustc-web
/usr/bin/cargo cargo-web
/usr/src/rustc-*/library/core/src/lib.rs rust-web-src
/usr/share/cargo/registry/arrayvec-0.7.*/Cargo.toml librust-arrayvec-dev
/usr/share/cargo/registry/byteorder-1.*/Cargo.toml librust-byteorder-dev
/usr/share/cargo/registry/itoa-1.*/Cargo.toml librust-itoa-dev
/usr/share/cargo/registry/memchr-2.*/Cargo.toml librust-memchr-dev
/usr/share/cargo/registry/rand_core-0.6.*/Cargo.toml librust-rand-core-dev
/usr/share/cargo/registry/rand_pcg-0.3.*/Cargo.toml librust-rand-pcg-dev
/usr/share/cargo/registry/rand_xoshiro-0.6.*/Cargo.toml librust-rand-xoshiro-dev
ld.lld lld
wasm-ld lld
node nodejs
qemu-system-arm qemu-system-arm
'
optional='
qemu-aarch64 qemu-user
aarch64-linux-gnu-gcc gcc-aarch64-linux-gnu
/usr/aarch64-linux-gnu/lib/crt1.o libc6-dev-arm64-cross
'
# The first Rust with edition 2024, in which the sources are written.
oldest=1.85

say() {
    echo "setup-rust.sh: $*" >&2
}

# Whether a pattern has a match among files, or a command is there.
is_there() {
    case $1 in
        /*)
            # The pattern has no spaces, and it is to be expanded.
            # shellcheck disable=SC2086
            set -- $1
            [ -e "$1" ]
            ;;
        *) command -v "$1" >/dev/null 2>&1 ;;
    esac
}

# Whether Debian's rustc is as new as the sources need.
is_new() {
    version=$(/usr/bin/rustc --version 2>/dev/null | cut -d ' ' -f 2)
    [ -n "$version" ] && [ "$(printf '%s\n%s\n' "$oldest" "$version" | sort -V | head -n 1)" = "$oldest" ]
}

# The packages of a list that are missing, each once.
missing_of() {
    echo "$1" | while read -r what package; do
        [ -z "$what" ] && continue
        if [ "$package" = rustc-web ] || [ "$package" = cargo-web ]; then
            is_there "$what" && is_new && continue
        else
            is_there "$what" && continue
        fi
        echo "$package"
    done | sort -u | tr '\n' ' '
}

# Runs a command as root, where that is allowed.
as_root() {
    if [ "$(id -u)" -eq 0 ]; then
        "$@"
    else
        sudo -n "$@"
    fi
}

# Installs the Debian packages whose names are given.
install_packages() {
    if ! command -v apt-get >/dev/null 2>&1; then
        say "there is no apt-get on this system"
        return 1
    fi
    if [ "$(id -u)" -ne 0 ] && ! sudo -n true >/dev/null 2>&1; then
        say "this user may not install packages"
        return 1
    fi
    as_root env DEBIAN_FRONTEND=noninteractive apt-get -q update >&2 || say "the package lists could not be updated"
    as_root env DEBIAN_FRONTEND=noninteractive apt-get -q -y -o DPkg::Lock::Timeout=300 --no-install-recommends install "$@" >&2
}

mode=${1:-}
[ $# -le 1 ] || mode=unknown
case $mode in
    '' | --check) wanted=$needed ;;
    --optional) wanted=$needed$optional ;;
    *)
        say "usage: tools/setup-rust.sh [--check | --optional]"
        exit 2
        ;;
esac

missing=$(missing_of "$wanted")
if [ -n "$missing" ] && [ "$mode" != --check ]; then
    # The names have no spaces, and each is a word of its own.
    # shellcheck disable=SC2086
    install_packages $missing
    missing=$(missing_of "$wanted")
fi
if [ -n "$missing" ]; then
    say "missing: ${missing% }"
    say "install on Debian 12 or later: apt-get install ${missing% }"
    exit 1
fi
say "Debian's rustc $(/usr/bin/rustc --version | cut -d ' ' -f 2) has what the export needs"
if [ "$mode" = --check ] && [ -n "$(missing_of "$optional")" ]; then
    absent=$(missing_of "$optional")
    say "optional, and missing: ${absent% } (tools/setup-rust.sh --optional)"
fi
