#!/usr/bin/env bash
# Builds what is installed from clones of the last commit, and tries it: the wheel, the Debian package, the man page, the
# completions and the release. `all` tries README.md's commands for installing too, each in a Debian that debootstrap makes
# from nothing (as root; it fetches some 500 MB), and runs the notebook.
# Usage: tests/install.sh quick | all. The last line is 'N passed, M failed', and the status is 0 where M is 0. It installs the
# packages that it needs where that is allowed, and else names them (tools/setup-packaging.sh).
# shellcheck disable=SC2317 # Functions are called by their names through `says`.
set -u
top=$(cd "$(dirname "$0")/.." && pwd) || exit 1
folder=$(mktemp -d) || exit 1
trap 'chmod -R u+w "$folder"; rm -rf "$folder"' EXIT
passed=0
failed=0
version=$(cat "$top/VERSION")
wheel=foldcairn-$version-py3-none-manylinux_2_34_x86_64.whl
deb=foldcairn_${version}_amd64.deb
tarball=foldcairn-$version.tar.gz
rust=foldcairn-rust-$version.tar.gz
example=packets-along-a-line
python=/usr/bin/python3

# says NAME CONDITION..: counts whether the condition holds.
says() {
    local name=$1
    shift
    if "$@" > "$folder/written" 2>&1; then
        passed=$((passed + 1))
    else
        failed=$((failed + 1))
        echo "FAILED: $name"
        tail -n 20 "$folder/written"
    fi
}

finish() {
    echo "$passed passed, $failed failed"
    [ "$failed" -eq 0 ]
    exit
}

# reports COMMAND..: whether the command writes the report of the example.
reports() {
    "$@" > "$folder/out" && cmp "$folder/out" "$top/examples/expected/$example.report"
}

is_picture() {
    grep -q '<svg' "$1" && [ "$(grep -c '<path' "$1")" -gt 20 ]
}

# Whether a clone is as git has it, without any further file.
untouched() {
    [ -z "$(git -C "$1" status --porcelain --ignored)" ]
}

# Two clones, one with blanks in its path, another umask and another zone, give the same bytes. So does the tarball.
releases() {
    git clone -q "$top" "$folder/one" && git clone -q "$top" "$folder/the other one" || return 1
    [ -z "$(git -C "$top" status --porcelain)" ] || echo "the last commit is tried, without what is not committed" >&2
    says "a release" "$folder/one/tools/package.sh" release
    says "the release of another clone" release_elsewhere
    for name in $wheel $deb $tarball $rust studio.html SHA256SUMS; do
        says "$name of two clones" cmp "$folder/one/dist/$name" "$folder/the other one/dist/$name"
    done
    dist=$folder/one/dist
    cp -r "$dist" "$folder/dist" && rm -r "$dist" "$folder/the other one/dist" && dist=$folder/dist
    says "a clone after its release" untouched "$folder/one"
    says "the checksums" sums
    tar -xzf "$dist/$tarball" -C "$folder"
    says "the sources of the tarball run" reports "$folder/foldcairn-$version/foldcairn" run "$top/examples/$example.scenario"
    says "a wheel of the tarball" "$folder/foldcairn-$version/tools/package.sh" wheel "$folder/of-tarball"
    says "the wheel of the tarball" cmp "$folder/of-tarball/$wheel" "$dist/$wheel"
    says "the workspace of the release is that of these sources" workspace
}

workspace() {
    tar -xzf "$dist/$rust" -C "$folder" && PYTHONDONTWRITEBYTECODE=1 "$python" "$folder/one/tools/export" --check "$folder/${rust%.tar.gz}"
}

release_elsewhere() {
    (umask 077 && TZ=Asia/Tokyo LC_ALL=C "$folder/the other one/tools/package.sh" release)
}

sums() {
    (cd "$dist" && sha256sum --check SHA256SUMS && [ "$(wc -l < SHA256SUMS)" -eq 5 ])
}

# An environment that sees Debian's modules, one that has none but pip, and an install of the clone, each without network. The first sees
# the Debian package too where that is installed on this machine; so the wheel is installed as README.md says, and then once more, which asks for
# its requirements.
wheels() {
    local bare=$folder/bare/bin full=$folder/full/bin scenario=$top/examples/$example.scenario
    "$python" -m venv "$folder/bare" && "$python" -m venv --system-site-packages "$folder/full" || return 1
    says "the wheel without its requirements" "$bare/pip" install -q --no-index --no-deps "$dist/$wheel"
    says "it runs without pandas" reports "$bare/foldcairn" run "$scenario"
    says "it explains a rejected line" explains "$bare/foldcairn"
    says "it names what a report needs" lacks_modules "$bare"
    says "the wheel" "$full/pip" install -q --no-index --force-reinstall --no-deps "$dist/$wheel"
    says "its requirements" "$full/pip" install -q --no-index "$dist/$wheel"
    says "run" reports "$full/foldcairn" run "$scenario"
    says "run of the standard input" reports "$full/foldcairn" run < "$scenario"
    says "one help for all commands" helps "$full/foldcairn"
    says "a help of which one line is read" cuts_help "$full/foldcairn"
    says "report" "$full/foldcairn" report "$scenario"
    says "a page" "$full/foldcairn" report --html "$folder/page.html" "$scenario"
    says "timeline" "$full/foldcairn" timeline "$scenario" -o "$folder/timeline.svg"
    says "the timeline is a picture" is_picture "$folder/timeline.svg"
    says "the package finds its own program" finds "$full/python"
    says "the example of README.md" readme_python "$full/python"
    says "the wheel is gone" removed
    says "an install of the clone" "$full/pip" install -q --no-index --no-deps --force-reinstall --no-build-isolation "$folder/one/python"
    says "the clone after it" untouched "$folder/one"
    says "run of the clone's wheel" reports "$full/foldcairn" run "$scenario"
    says "what the wheel says of itself" metadata
}

# A rejected line is explained with its range.
explains() {
    printf 'frames 6\nsends 9\n' | "$1" run 2> "$folder/err" && return 1
    grep -q 'line 2: `sends 9`.* from 1 to 4' "$folder/err" || { cat "$folder/err" && return 1; }
}

# BIN: a command of the package names the modules that the Python of that environment lacks, and no other Python runs another package.
lacks_modules() {
    "$1/foldcairn" report "$top/examples/$example.scenario" > "$folder/out" 2> "$folder/err"
    [ $? -eq 127 ] && [ ! -s "$folder/out" ] && grep -q "$1/python.* lacks networkx numpy pandas scipy statsmodels tomlkit tqdm: .*pip install" "$folder/err" && return
    cat "$folder/out" "$folder/err"
    return 1
}

# Each command of the package is one of the help, and has a help of its own.
helps() {
    local word
    "$1" --help > "$folder/help" || return 1
    for word in $("$folder/full/bin/python" -m foldcairn --help | sed -n 's/^    \([a-z]\{3,\}\)\( .*\|$\)/\1/p'); do
        grep -q "^  foldcairn $word" "$folder/help" || { echo "no $word" && return 1; }
        "$1" "$word" --help > "$folder/out" && grep -q "^usage: foldcairn $word" "$folder/out" || return 1
    done
    [ "$(grep -c '^  foldcairn [a-z-]' "$folder/help")" -ge 20 ]
}

# COMMAND: where a reader goes, nothing is said of it.
cuts_help() {
    "$1" --help 2> "$folder/err" | head -n 1 > "$folder/out"
    cat "$folder/err"
    [ -s "$folder/out" ] && [ ! -s "$folder/err" ]
}

finds() {
    (cd / && "$1" -c "
import os, pathlib, foldcairn
from foldcairn.runs import program
os.environ['PATH'] = '/usr/bin:/bin'
found = program.find()
assert found == pathlib.Path(foldcairn.__file__).parent / 'installed' / 'foldcairn', found
assert program.execute(['demo', '7', '2', '1']).startswith(b'deliveries 0')
assert program.checksum() == '$(sha256sum < "$top/bin/foldcairn-x86_64-linux" | cut -d ' ' -f 1)'")
}

# The block of Python in README.md prints what the block below it has.
# shellcheck disable=SC2016
readme_python() {
    sed -n '/^```python$/,/^```$/p' "$top/README.md" | sed '/^```/d' > "$folder/example.py"
    sed -n '/^```python$/,/^## /p' "$top/README.md" | sed -n '/^```text$/,/^```$/p' | sed '/^```/d' > "$folder/wanted"
    (cd "$folder" && "$1" example.py) | diff "$folder/wanted" -
}

removed() {
    "$folder/full/bin/pip" uninstall -q -y foldcairn && [ -z "$(find "$folder/full" -iname '*foldcairn*')" ]
}

metadata() {
    unzip -p "$dist/$wheel" '*/METADATA' > "$folder/out" && unzip -l "$dist/$wheel" | grep -q 'dist-info/.*LICENSE' || return 1
    for line in "Version: $version" 'License: MIT' 'Requires-Python: >=3.11' 'Provides-Extra: plot' 'Provides-Extra: page' \
        'Provides-Extra: dask' 'Description-Content-Type: text/markdown'; do
        grep -qx "$line" "$folder/out" || { echo "no $line" && return 1; }
    done
    # The list that the front end and the Debian package go by is that of the wheel.
    [ "$(sed -n 's/^Requires-Dist: \([a-z]*\)[<>=,.0-9]*$/\1/p' "$folder/out" | sort | xargs)" = "$(sed -n 's/^modules|\([^|]*\)|.*/\1/p' "$top/tools/commands.txt")" ] ||
        return 1
    # The project has no address of its own, and so none here.
    ! grep '^Project-URL:\|^Home-page:' "$folder/out" || return 1
    ! grep '^Requires-Dist: \(matplotlib\|plotly\|jinja2\|distributed\)' "$folder/out" | grep -v extra
}

# What is unpacked of the Debian package is tried without being installed.
debs() {
    local root=$folder/root
    says "lintian" lints
    dpkg-deb -x "$dist/$deb" "$root" || return 1
    says "the unpacked program" reports "$root/usr/bin/foldcairn" run "$root/usr/share/doc/foldcairn/examples/$example.scenario"
    says "the pages lead to one another" pages_lead "$root/usr/share/doc/foldcairn"
    says "the man page has all commands" manual "$root"
    says "bash completes" completes in_bash "$root/usr/share/bash-completion/completions/foldcairn"
    says "zsh completes" completes in_zsh "$root/usr/share/zsh/vendor-completions"
    says "fish completes" completes in_fish "$root/usr/share/fish/vendor_completions.d/foldcairn.fish"
}

# Lintian has no error and no warning. Its remarks are these: the completions have words of bash in a script of sh, pages are
# reached from /usr/share/doc by a link, and the program is stored as the compiler made it, not linked for Debian.
lints() {
    lintian --allow-root --display-info --pedantic "$dist/$deb" > "$folder/lint" 2>&1
    ! grep -v '^N:\|^running with root\| bash-term-in-posix-shell \| package-contains-documentation-outside-usr-share-doc \|
 hardening-no-fortify-functions \| binary-has-unneeded-section \| spelling-error-in-binary ' "$folder/lint"
}

# Each link of the first page to a page or a picture leads to one.
pages_lead() {
    local link
    while read -r link; do
        [ -e "$1/$link" ] || { echo "nothing at $link" && return 1; }
    done < <(grep -oE '\]\([^)#: ]+\)' "$1/README.md" | sed 's/^](//; s/)$//' | grep -v '^LICENSE$' | sort -u)
}

# The page as it is shown has each command of the help, and nothing that groff warns of.
manual() {
    LC_ALL=C.UTF-8 MANROFFSEQ='' MANWIDTH=200 man --warnings -l "$1/usr/share/man/man1/foldcairn.1.gz" > "$folder/shown" 2> "$folder/err" || return 1
    cat "$folder/err"
    [ ! -s "$folder/err" ] || return 1
    "$1/usr/lib/foldcairn/foldcairn" --help | sed -n 's/^  \(foldcairn .\{26\}\).*/\1/p' | sed 's/ *$//' > "$folder/commands"
    [ "$(wc -l < "$folder/commands")" -ge 20 ] || return 1
    while read -r line; do
        grep -qF -- "$line" "$folder/shown" || { echo "not shown: $line" && return 1; }
    done < "$folder/commands"
    grep -qF 'foldcairn-x86_64-linux run < FILE' "$folder/shown"
}

# What is typed after the command, and what completes its last word: a command, an option and its words, and second words.
completions='deadl|deadlines
sweep --mea|--measure
sweep --measure p|planning
run --h|--help
help capa|capacity
--completion z|zsh'

# FUNCTION FILE: whether each completion is what the function writes for it, which runs the unpacked command in an empty folder.
completes() {
    local typed wanted
    mkdir -p "$folder/empty"
    while IFS='|' read -r typed wanted; do
        (cd "$folder/empty" && PATH=$folder/root/usr/bin:$PATH "$1" "$2" "$typed" < /dev/null) > "$folder/out" 2>&1
        [ "$(tail -n 1 "$folder/out")" = "$wanted" ] || { echo "foldcairn $typed:" && cat "$folder/out" && return 1; }
    done <<< "$completions"
}

in_bash() {
    # shellcheck disable=SC2016 # The inner shell has the words.
    bash -c 'source "$1"; COMP_WORDS=(foldcairn $2); COMP_CWORD=$((${#COMP_WORDS[@]} - 1))
        _foldcairn foldcairn "${COMP_WORDS[COMP_CWORD]}" "${COMP_WORDS[COMP_CWORD - 1]}"; echo "${COMPREPLY[@]}"' bash "$1" "$2"
}

in_fish() {
    fish -N -c "source '$1'; complete -C 'foldcairn $2'" | cut -f 1
}

# An interactive zsh on a terminal of its own, in which a word is completed by a tabulator.
in_zsh() {
    cat > "$folder/typed.zsh" <<'ZSH'
zmodload zsh/zpty
zpty shell 'env TERM=dumb PS1="> " zsh -f -i'
zpty -w shell "fpath=($1 \$fpath); autoload -Uz compinit; compinit -u -D; bindkey '^I' complete-word; echo rea''dy"
zpty -r -m shell answer '*ready*'
zpty -n -w shell "foldcairn $2"$'\t'
all=
repeat 100; do
    sleep 0.1
    while zpty -r -t shell answer; do all+=$answer; done
    [[ $all == *$3* ]] && { print -r -- $3; exit 0 }
done
print -r -- $all
ZSH
    timeout 60 zsh -f "$folder/typed.zsh" "$1" "$2" "$(grep -F -- "$2|" <<< "$completions" | sed 's/.*|//')"
}

case ${1-} in
    quick | all) ;;
    *)
        echo "usage: tests/install.sh quick | all" >&2
        exit 2
        ;;
esac
if ! "$top/tools/setup-packaging.sh" "--$1"; then
    echo "0 passed, 1 failed"
    exit 1
fi
if ! { releases && wheels && debs; }; then
    says "the parts can be tried" false
fi
if [ "$1" = all ]; then
    # shellcheck source=tests/install_debian.sh disable=SC1091
    . "$top/tests/install_debian.sh"
    installs_on_debian
fi
finish
