#!/usr/bin/env bash
# Exports the proved sources as Rust, builds them by Debian's rustc with warnings as errors, and tries what is built: the tests of the
# exporter, of the shim and of the sources; the bytes that both programs write of examples, worked texts and random texts, compared with the
# stored programs'; and, by tests/program.sh and tests/plan.sh, all that the stored programs are tried on, with each request for memory
# refused in turn. As WebAssembly both programs are asked for the same bytes too, under node, and in Chromium from a file. `all` does so with
# 300 seeds of random texts in place of 10, and 100 in WebAssembly. The node alone runs on QEMU's Cortex-M4 (tests/firmware.sh), and by `all`
# both programs for Linux on 64-bit Arm (tests/arm64.sh).
# Usage: tests/export.sh quick | all [FOLDER]. It builds in the folder, or in one of its own that goes. It installs what it needs where
# that is allowed (tools/setup-rust.sh). The last line is 'N passed, M failed', and the status is 0 where M is 0.
# shellcheck disable=SC2317 # Functions are called by their names through `says`.
set -u
top=$(cd "$(dirname "$0")/.." && pwd) || exit 1
case ${1-} in
    quick) seeds=10 wasm_seeds=3 logs=few optional= ;;
    all) seeds=300 wasm_seeds=100 logs=all optional=--optional ;;
    *)
        echo "usage: tests/export.sh quick | all [FOLDER]" >&2
        exit 2
        ;;
esac
if [ $# -ge 2 ]; then
    mkdir -p "$2" && folder=$(cd "$2" && pwd) || exit 1
else
    folder=$(mktemp -d) || exit 1
    trap 'rm -rf "$folder"' EXIT
fi
passed=0
failed=0
out=$folder/workspace
built=$out/target/release
# Debian's own: a rustc of rustup may be before them on the PATH.
export CARGO=/usr/bin/cargo RUSTC=/usr/bin/rustc RUSTDOC=/usr/bin/rustdoc CARGO_TERM_COLOR=never CARGO_PROFILE_TEST_DEBUG=0 CARGO_PROFILE_DEV_DEBUG=0
export PYTHONDONTWRITEBYTECODE=1
cargo=/usr/bin/cargo

# says NAME CONDITION..: counts whether the condition holds, and how long it took to say so.
says() {
    local name=$1 from=$SECONDS
    shift
    if "$@" > "$folder/written" 2>&1; then
        passed=$((passed + 1))
        echo "$name: $((SECONDS - from)) s"
    else
        failed=$((failed + 1))
        echo "FAILED: $name"
        tail -n 40 "$folder/written"
        return 1
    fi
}

exports() {
    "$python" "$top/tools/export" "$out" && "$python" "$top/tools/export" --check "$out" || return 1
    # Debian has the sources of the crates that are linked, so no network is needed.
    mkdir -p "$out/.cargo" && printf '[source.crates-io]\nreplace-with = "debian"\n[source.debian]\ndirectory = "/usr/share/cargo/registry"\n' \
        > "$out/.cargo/config.toml"
}

exporter_tests() {
    (cd "$top/tools/export" && "$python" -m pytest -q -p no:cacheprovider tests)
}

builds() {
    (cd "$out" && RUSTFLAGS="-D warnings" "$cargo" build --offline --quiet --release)
}

# The tests of the shim, and of each crate that has one.
unit_tests() {
    local crates
    crates=$(cd "$out/crates" && grep -rlF '#[test]' --include='*.rs' . | cut -d / -f 2 | sort -u | sed 's/^/-p /')
    # Each name is a word of its own.
    # shellcheck disable=SC2086
    (cd "$out" && RUSTFLAGS="-D warnings" "$cargo" test --offline --quiet --lib -p rattle_std --features rattle_std/host \
        -p circular_buffer -p rattle_rand_core $crates)
}

same_bytes() {
    "$python" "$top/tests/same_bytes.py" "$built/foldcairn" "$built/foldcairn-plan" --random "$seeds"
}

# The Python package takes the program that FOLDCAIRN names, and that of a planner beside it.
package_finds() {
    FOLDCAIRN=$built/foldcairn PYTHONPATH=$top/python/src "$python" - "$built" "$top/tests/worked/three-in-a-line.network" <<'PYTHON'
import pathlib
import sys

from foldcairn.runs import program

folder = pathlib.Path(sys.argv[1])
assert program.find() == folder / "foldcairn", program.find()
assert program.find_planner() == folder / "foldcairn-plan", program.find_planner()
assert program.execute(["demo", "7", "2", "1"]).startswith(b"deliveries 0\n")
assert program.execute(["outcome", "7"], pathlib.Path(sys.argv[2]).read_bytes()).startswith(b"cost 1 811008 ")
PYTHON
}

# What the stored programs are tried on, with each read, write and request for memory that fails.
as_the_stored() {
    "$top/tests/program.sh" "$built/foldcairn" > "$folder/program.log" 2>&1 &
    local first=$!
    "$top/tests/plan.sh" "$built/foldcairn-plan" "$built/foldcairn" > "$folder/plan.log" 2>&1
    local plan=$? run
    wait "$first"
    run=$?
    tail -n 20 "$folder/program.log" "$folder/plan.log"
    [ "$run" -eq 0 ] && [ "$plan" -eq 0 ]
}

as_said() {
    wait "$stored" || {
        cat "$folder/stored"
        return 1
    }
}

wasm_builds() {
    "$top/tools/wasm.sh" "$out" "$folder/wasm"
}

# The module that is stored for the planner's page writes what the stored programs write. Its bytes are not compared with those of the one
# that was built: in which order rustc lays functions out depends on the folder in which it builds.
wasm_stored() {
    mkdir "$folder/module" && cp "$top/bin/foldcairn.wasm" "$top/tools/export/wasm/foldcairn.js" "$folder/module" || return
    "$python" "$top/tests/same_bytes.py" --through "node $top/tests/wasm_cases.mjs $folder/module" --random 1 || {
        echo "bin/foldcairn.wasm is not of this tree: run 'make module', and commit bin/"
        return 1
    }
}

wasm_bytes() {
    "$python" "$top/tests/same_bytes.py" --through "node $top/tests/wasm_cases.mjs $folder/wasm" --random "$wasm_seeds"
}

wasm_module() {
    node "$top/tests/wasm_module.mjs" "$folder/wasm"
}

wasm_page() {
    "$python" "$top/tests/wasm_page.py" "$folder/wasm"
}

on_a_device() {
    "$top/tests/firmware.sh" "$out" "$folder/firmware" "$logs"
}

on_arm64() {
    "$top/tests/arm64.sh" "$out" "$folder/arm64" 60
}

# Rust's own library for both other machines is built beside the rest.
libraries() {
    "$top/tools/rust-sysroot.sh" wasm32-unknown-unknown "$folder/wasm/sysroot" 3
    "$top/tools/rust-sysroot.sh" thumbv7em-none-eabi "$folder/firmware/sysroot" s
}

in_wasm() {
    says "the module" wasm_builds || return
    says "the stored module" wasm_stored
    says "the same bytes in WebAssembly" wasm_bytes
    says "the module in JavaScript" wasm_module
    if command -v chromium > "$folder/found"; then
        says "the module in a page from a file" wasm_page
    elif [ "${CI:-}" = true ]; then
        says "no page was opened, since there is no chromium" false
    fi
}

# The word is there or not.
# shellcheck disable=SC2086
if ! "$top/tools/setup-rust.sh" $optional || ! "$top/tools/setup-python.sh"; then
    echo "0 passed, 1 failed"
    exit 1
fi
python=$("$top/tools/setup-python.sh" --print)
libraries > "$folder/libraries" 2>&1 &
libraries=$!
says "the exporter's tests" exporter_tests
says "the export" exports
if says "the build, with warnings as errors" builds; then
    # Most of its time goes into starting programs, and what follows is built meanwhile.
    as_the_stored > "$folder/stored" 2>&1 &
    stored=$!
    says "the unit tests" unit_tests
    says "the same bytes" same_bytes
    says "the Python package finds the programs" package_finds
    wait "$libraries"
    in_wasm
    says "a node on a Cortex-M4" on_a_device
    [ -z "$optional" ] || says "the same bytes on 64-bit Arm" on_arm64
    says "what the stored programs are tried on" as_said
fi
wait
echo "$passed passed, $failed failed"
[ "$failed" -eq 0 ]
