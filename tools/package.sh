#!/bin/sh
# Builds what is installed, from a copy of the files that git tracks: nothing is left in the repository. The same sources give
# the same bytes, since all times are that of the last commit (SOURCE_DATE_EPOCH).
# Usage: tools/package.sh wheel | deb | rust | release [FOLDER]. It writes into FOLDER, or into dist:
#   wheel     foldcairn-VERSION-py3-none-manylinux_2_34_x86_64.whl
#   deb       that, and foldcairn_VERSION_amd64.deb, which has the package of the wheel for Debian's Python
#   rust      foldcairn-rust-VERSION.tar.gz: the proved sources as a Cargo workspace, by tools/export
#   release   all of them, foldcairn-VERSION.tar.gz with the sources, studio.html (the planner's page with its example, for who installs
#             nothing), and SHA256SUMS; the last commit has to have all changes
# tools/setup-packaging.sh installs what it needs; the workspace needs Python alone.
set -u
umask 022
top=$(cd "$(dirname "$0")/.." && pwd) || exit 1
what=${1-}
version=$(cat "$top/VERSION")
work=$(mktemp -d) || exit 1
trap 'rm -rf "$work"' EXIT
tree=$work/foldcairn-$version
root=$work/root
python=/usr/bin/python3

ends() {
    echo "tools/package.sh: $*" >&2
    exit 1
}

# The files of the repository, or without git all that no build made.
copy_sources() {
    mkdir "$tree" && cd "$top" || return 1
    { git ls-files -z --error-unmatch VERSION . 2>/dev/null ||
        find . \( -name out -o -name dist -o -name __pycache__ \) -prune -o ! -type d -print0; } |
        xargs -0 cp -P --parents -t "$tree"
}

# When the sources were committed. A tarball of them has that time on its files.
epoch() {
    git -C "$top" log -1 --format=%ct 2>/dev/null || stat -c %Y "$top/VERSION"
}

build_wheel() {
    (cd "$tree/python" && "$python" -m hatchling build -t wheel -d "$folder" >"$work/log" 2>&1) || {
        cat "$work/log" >&2
        ends "the wheel could not be built"
    }
    chmod 644 "$folder"/foldcairn-"$version"-py3-*.whl
}

# The package of the wheel, without what is installed beside it there.
deb_python() {
    modules=$root/usr/lib/python3/dist-packages
    mkdir -p "$modules" && "$python" -m zipfile -e "$folder"/foldcairn-"$version"-py3-*.whl "$modules" || return 1
    rm -r "$modules/foldcairn/installed" && cd "$modules/foldcairn-$version.dist-info" &&
        rm -r RECORD WHEEL entry_points.txt license*
}

# Pages and examples: /usr/share has them, and the front end's folder leads there.
deb_pages() {
    own=$root/usr/lib/foldcairn
    pages=$root/usr/share/doc/foldcairn
    mkdir -p "$root/usr/share/foldcairn" "$pages" || return 1
    mv "$own/docs" "$root/usr/share/foldcairn/docs" && cp -r "$tree/docs/internals" "$root/usr/share/foldcairn/docs/" || return 1
    mv "$own/examples" "$pages/examples" && cp "$tree/README.md" "$tree/CONTRIBUTING.md" "$tree/SECURITY.md" "$tree/CHANGELOG.md" "$pages/" || return 1
    ln -s ../../share/foldcairn/docs "$own/docs" && ln -s ../../foldcairn/docs "$pages/docs" &&
        ln -s ../../share/doc/foldcairn/examples "$own/examples"
}

# The man page is the help, by help2man.
deb_manual() {
    mkdir -p "$root/usr/share/man/man1" "$root/usr/share/bash-completion/completions" \
        "$root/usr/share/zsh/vendor-completions" "$root/usr/share/fish/vendor_completions.d" || return 1
    help2man --no-info --section=1 --version-string="$version" --include="$tree/tools/foldcairn.h2m" \
        --output="$root/usr/share/man/man1/foldcairn.1" "$own/foldcairn" || return 1
    gzip -9n "$root/usr/share/man/man1/foldcairn.1" &&
        "$own/foldcairn" --completion bash > "$root/usr/share/bash-completion/completions/foldcairn" &&
        "$own/foldcairn" --completion zsh > "$root/usr/share/zsh/vendor-completions/_foldcairn" &&
        "$own/foldcairn" --completion fish > "$root/usr/share/fish/vendor_completions.d/foldcairn.fish"
}

maintainer='Foldcairn maintainers <maintainers@users.noreply.foldcairn.example>'

deb_texts() {
    gzip -9n > "$pages/changelog.gz" <<TEXT
foldcairn ($version) unstable; urgency=medium

  * CHANGELOG.md has what changed.

 -- $maintainer  $(LC_ALL=C date -u -R -d "@$SOURCE_DATE_EPOCH")
TEXT
    {
        printf 'Format: https://www.debian.org/doc/packaging-manuals/copyright-format/1.0/\n\nFiles: *\n'
        printf 'Copyright: %s\nLicense: Expat\n' "$(sed -n 's/^Copyright (c) //p' "$tree/LICENSE")"
        sed '1,/^Copyright/d; /./,$!d; s/^$/./; s/^/ /' "$tree/LICENSE"
    } > "$pages/copyright"
}

# The names of Debian's packages of the modules in a field of tools/commands.txt.
debian_packages() {
    awk -F '|' -v field="$1" '$1 == "modules" { gsub(/[a-z]+/, "python3-&", $field); gsub(/ /, ", ", $field); print $field }' \
        "$tree/tools/commands.txt"
}

deb_control() {
    mkdir "$root/DEBIAN" && cat > "$root/DEBIAN/control" <<TEXT
Package: foldcairn
Version: $version
Architecture: amd64
Maintainer: $maintainer
Installed-Size: $(find "$root/usr" -type f -printf '%s\n' | awk '{ size += int(($1 + 1023) / 1024) } END { print size }')
Depends: libc6 (>= 2.34), python3 (>= 3.11), $(debian_packages 2)
Recommends: $(debian_packages 3)
Suggests: python3-distributed, python3-openpyxl, python3-optuna, wireshark
Section: science
Priority: optional
Description: simulator of Glossy floods and a low-power wireless bus
 Foldcairn simulates Glossy floods, and a protocol modelled on the
 Low-Power Wireless Bus, for up to 64 nodes whose clocks drift
 independently. Its programs are proved from the bytes that they read to
 the bytes that they write. A Python package, which is tested, plans
 networks with them: delivery ratios, latencies, outages and radio time as
 tables, pictures and pages.
TEXT
    # Python's bytecode is made and removed as Debian's own packages have it.
    printf '#!/bin/sh\nset -e\nif command -v py3compile >/dev/null; then py3compile -p foldcairn; fi\n' > "$root/DEBIAN/postinst"
    printf '#!/bin/sh\nset -e\nif command -v py3clean >/dev/null; then py3clean -p foldcairn; fi\n' > "$root/DEBIAN/prerm"
    chmod 755 "$root/DEBIAN/postinst" "$root/DEBIAN/prerm"
    (cd "$root" && find usr -type f -print0 | LC_ALL=C sort -z | xargs -0 md5sum > DEBIAN/md5sums)
}

build_deb() {
    "$tree/tools/installed.sh" "$root/usr/lib/foldcairn" /usr/share/doc/foldcairn || ends "the programs could not be copied"
    mkdir -p "$root/usr/bin" && ln -s ../lib/foldcairn/foldcairn "$root/usr/bin/foldcairn" || exit 1
    if ! { (deb_python) && deb_pages && deb_manual && deb_texts && deb_control; }; then
        ends "the Debian package could not be put together"
    fi
    find "$root" -type d -exec chmod 755 {} + && find "$root/usr/share" "$root/usr/lib/python3" -type f -exec chmod 644 {} +
    find "$root" -exec touch -h -d "@$SOURCE_DATE_EPOCH" {} +
    dpkg-deb --root-owner-group -Zxz --threads-max=1 --build "$root" "$folder/foldcairn_${version}_amd64.deb" >"$work/log" ||
        ends "dpkg-deb failed"
}

build_rust() {
    name=foldcairn-rust-$version
    PYTHONDONTWRITEBYTECODE=1 "$python" "$tree/tools/export" "$work/$name" >"$work/log" || ends "the sources could not be exported"
    tar -C "$work" --sort=name --owner=0 --group=0 --numeric-owner --mode=u=rwX,go=rX --mtime="@$SOURCE_DATE_EPOCH" -cf - "$name" |
        gzip -9n > "$folder/$name.tar.gz"
}

build_page() {
    PYTHONDONTWRITEBYTECODE=1 PYTHONPATH=$tree/python/src FOLDCAIRN_WASM=$work/module "$python" -m foldcairn studio -o "$folder/studio.html" >"$work/log"
}

build_release() {
    [ -z "$(git -C "$top" status --porcelain)" ] || ends "the last commit has not all changes: commit them first"
    mkdir "$work/module" && cp "$tree/bin/foldcairn.wasm" "$tree/tools/export/wasm/foldcairn.js" "$work/module" || exit 1
    build_page || ends "the planner's page could not be written"
    git -C "$top" -c tar.umask=0022 archive --format=tar --prefix="foldcairn-$version/" HEAD | gzip -9n > "$folder/foldcairn-$version.tar.gz"
    (cd "$folder" && LC_ALL=C sha256sum "foldcairn-$version.tar.gz" foldcairn-"$version"-py3-*.whl "foldcairn-rust-$version.tar.gz" \
        "foldcairn_${version}_amd64.deb" studio.html) > "$work/sums"
    mv "$work/sums" "$folder/SHA256SUMS"
}

case $what in
    wheel | deb | rust | release) ;;
    *) ends "usage: tools/package.sh wheel | deb | rust | release [FOLDER]" ;;
esac
[ "$what" = rust ] || "$top/tools/setup-packaging.sh" --check || exit 1
mkdir -p "${2:-$top/dist}" && folder=$(cd "${2:-$top/dist}" && pwd) || exit 1
SOURCE_DATE_EPOCH=${SOURCE_DATE_EPOCH:-$(epoch)}
export SOURCE_DATE_EPOCH
copy_sources || ends "the sources could not be copied"
[ "$what" = rust ] || build_wheel
case $what in
    deb | release) build_deb ;;
esac
case $what in
    rust | release) build_rust ;;
esac
case $what in
    release) build_release ;;
esac
ls -l "$folder"
