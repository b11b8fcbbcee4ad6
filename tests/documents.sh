#!/usr/bin/env bash
# Runs what the documents show and says where the program writes something else. It takes the fenced blocks of README.md,
# CONTRIBUTING.md and SECURITY.md, of the pages below docs and of the README.md of each crate:
# - a block `console` has commands, each on a line after `$ `, with what they write on both streams. Every command is run, and
#   its output compared to the byte. No command goes on in a second line, so that each can be copied.
# - a block `text NAME`, NAME having a dot, is put into the file NAME for the commands below it.
# - a block `sh` is not run, since it asks for a network, another machine or much time; only its grammar is tried.
# Commands of the Python package, new, verify, search, failures and relays, are run where a Python has what the package needs, and else left
# out.
# Each page has a folder of its own, with the program as ./foldcairn and with bin, examples, tools and bench next to it. Where
# python3 is there, the crates, the public calls and what has to be read are listed once more, and compared too; and the words of
# the pages are counted. Where it has matplotlib in the version of the stored pictures, these are drawn once more, and compared.
# What pages show of the Python package asks for what tools/setup-python.sh installs.
# Usage: tests/documents.sh PROGRAM [PAGE ..]. The last line is 'N passed, M failed', and the status is 0 where M is 0.
set -u
top=$(cd "$(dirname "$0")/.." && pwd) || exit 1
program=$(realpath "${1:?the program}") || exit 1
shift
folder=$(mktemp -d) || exit 1
trap 'rm -rf "$folder"' EXIT
passed=0
failed=0

counts_pass() {
    passed=$((passed + 1))
}

counts_failure() {
    failed=$((failed + 1))
    echo "FAILED: $1"
}

# A folder for the commands of one page.
begin_page() {
    here=$folder/page-$1
    mkdir "$here"
    # The front end that users call compares checksums of the sources first; this one hands words on alone.
    cat > "$here/foldcairn" << END
#!/bin/sh
case \${1-}:\${2-} in
    run:[0-9]* | log:[0-9]*) exec "$top/bin/foldcairn-plan-x86_64-linux" "\$@" ;;
esac
case \${1-} in
    bounds | draw | fates | outcome | sample) exec "$top/bin/foldcairn-plan-x86_64-linux" "\$@" ;;
    failures | new | relays | search | sweep | verify) FOLDCAIRN=$program exec "$top/tools/in_python.sh" foldcairn "\$@" ;;
    *) exec "$program" "\$@" ;;
esac
END
    chmod +x "$here/foldcairn"
    for name in bin examples tools bench tests docs; do
        ln -s "$top/$name" "$here/$name"
    done
    last=0
}

# runs PLACE COMMAND: what it writes is to be what stands in the file wanted.
runs() {
    (
        cd "$here" || exit 1
        (exit "$last")
        eval "$2"
    ) > "$folder/written" 2>&1 < /dev/null
    last=$?
    if cmp -s "$folder/wanted" "$folder/written"; then
        counts_pass
    else
        counts_failure "$1: $2"
        diff "$folder/wanted" "$folder/written" | head -n 20
    fi
}

# The command that waits, if there is one, is run once its output is known.
run_waiting() {
    case $command in
        './foldcairn failures '* | './foldcairn new '* | './foldcairn relays '* | './foldcairn search '* | './foldcairn verify '*)
            [ -n "$package" ] || command=
            ;;
    esac
    if [ -n "$command" ]; then
        runs "$page:$place" "$command"
    fi
    command=
}

console_line() {
    case $1 in
        '$ '*)
            run_waiting
            command=${1#??}
            place=$number
            : > "$folder/wanted"
            return
            ;;
    esac
    printf '%s\n' "$1" >> "$folder/wanted"
}

end_block() {
    case $kind in
        console) run_waiting ;;
        sh)
            if bash -n "$folder/shell" 2> "$folder/written"; then
                counts_pass
            else
                counts_failure "$page:$place: no commands of a shell"
                cat "$folder/written"
            fi
            ;;
    esac
    kind=
}

# A fence opens a block where none is open: its word, and for a text the name of a file.
begin_block() {
    local name
    read -r kind name <<< "${1#\`\`\`}"
    place=$number
    command=
    case $kind in
        sh) target=$folder/shell ;;
        text)
            kind=other
            case $name in
                *.*)
                    kind='file'
                    target=$here/$name
                    ;;
            esac
            ;;
        console) ;;
        *) kind=other ;;
    esac
    case $kind in
        sh | file) : > "$target" ;;
    esac
}

read_page() {
    page=$1
    kind=
    number=0
    begin_page "${page//\//-}"
    while IFS= read -r line || [ -n "$line" ]; do
        number=$((number + 1))
        case $line in
            '```'*)
                if [ -n "$kind" ]; then
                    end_block
                else
                    begin_block "$line"
                fi
                continue
                ;;
        esac
        case $kind in
            console) console_line "$line" ;;
            sh | file) printf '%s\n' "$line" >> "$target" ;;
        esac
    done < "$top/$page"
    if [ -n "$kind" ]; then
        counts_failure "$page: a block has no end"
    fi
}

# Whether each link of a page to a file of the repository leads to one.
follow_links() {
    local link
    while IFS= read -r link; do
        if [ -e "$(dirname "$top/$1")/${link%%#*}" ]; then
            counts_pass
        else
            counts_failure "$1: there is nothing at $link"
        fi
    done < <(grep -oE '\]\([^)#: ]+(#[^) ]*)?\)' "$top/$1" | sed 's/^](//; s/)$//' | sort -u)
}

pictures() {
    local python status=0
    if ! python=$("$top/tools/setup-python.sh" --print 2> "$folder/written"); then
        echo "the pictures are not compared:"
        cat "$folder/written"
        return
    fi
    mkdir "$folder/pictures"
    "$python" "$top/tools/pictures.py" "$program" "$folder/pictures" > "$folder/written" 2>&1 || status=$?
    if [ "$status" -eq 3 ]; then
        echo "the pictures are not compared: $(cat "$folder/written")"
        return
    elif [ "$status" -ne 0 ]; then
        counts_failure "tools/pictures.py"
        cat "$folder/written"
        return
    fi
    for drawn in "$folder"/pictures/*.svg "$top"/docs/pictures/*.svg; do
        name=$(basename "$drawn")
        if cmp -s "$folder/pictures/$name" "$top/docs/pictures/$name"; then
            counts_pass
        else
            counts_failure "docs/pictures/$name is another picture"
        fi
    done
}

# What pages say of crates, and the lists of lemmas that are kept for the crates above, are to be what crates.txt and the sources have, and the
# notebook what its page has.
listed() {
    if ! command -v python3 > "$folder/written"; then
        return
    fi
    if python3 "$top/tools/crates.py" --check > "$folder/written" 2>&1; then
        counts_pass
    else
        counts_failure "the pages on crates are not what crates.txt, README.md of each crate and the sources have"
        cat "$folder/written"
    fi
    if python3 "$top/tools/notebook.py" "$top/docs/PLANNING.md" | cmp -s - "$top/examples/planning.ipynb"; then
        counts_pass
    else
        counts_failure "examples/planning.ipynb is not what tools/notebook.py writes: make notebook"
    fi
    if python3 "$top/tools/lemmas.py" | cmp -s - "$top/docs/internals/PROOFS.md"; then
        counts_pass
    else
        counts_failure "docs/internals/PROOFS.md is not what tools/lemmas.py writes: make lemmas"
    fi
}

# In a copy of what tools/crates.py reads: a README.md with another user, with another first sentence, and none at all.
crate_pages() {
    local copy=$folder/crates page
    if ! command -v python3 > "$folder/written"; then
        return
    fi
    mkdir "$copy"
    cp --parents -r crates.txt tools/crates.py docs/GUARANTEES.md docs/internals crates/*/README.md crates/*/src "$copy"
    page=$copy/crates/law_service/README.md
    for change in 's/`law_times`/`law_bus`/' '3s/^/Once more: /' remove; do
        cp crates/law_service/README.md "$page"
        if [ "$change" = remove ]; then
            rm "$page"
        else
            sed -i "$change" "$page"
        fi
        if python3 "$copy/tools/crates.py" --check > "$folder/written" 2>&1; then
            counts_failure "tools/crates.py accepts a README.md after: $change"
        elif grep -q '^crates/law_service/README.md ' "$folder/written"; then
            counts_pass
        else
            counts_failure "tools/crates.py says something else after: $change"
            cat "$folder/written"
        fi
    done
}

# What pages name is to be there. Six names that are not are found: of a file with and without its folder, of a function, of a
# module in a crate and of one by its path, and of a clause.
names() {
    if ! command -v python3 > "$folder/written"; then
        return
    fi
    if python3 "$top/tools/names.py" > "$folder/written"; then
        counts_pass
    else
        counts_failure "a page names what is not there"
        cat "$folder/written"
    fi
    mkdir -p "$folder/names"
    # shellcheck disable=SC2016 # A page's text.
    printf 'See `lwb_base/src/gone.rt` or `gone_for_ever`. There are `read_all` and `trails` in `lwb_base`. By clause `recording_radio` of\n`gone.rt`, `lwb_base::goner` goes.\n' \
        > "$folder/names/README.md"
    if python3 "$top/tools/names.py" "$folder/names/README.md" > "$folder/written"; then
        counts_failure "tools/names.py finds nothing"
    elif [ "$(wc -l < "$folder/written")" -eq 7 ]; then
        counts_pass
    else
        counts_failure "tools/names.py finds something else"
        cat "$folder/written"
    fi
}

# Each sentence of README.md that GUARANTEES.md gives a clause is to be there, with its clause and its edit. A table in which one of the
# three is another is found.
promises() {
    local copy=$folder/promises change
    if ! command -v python3 > "$folder/written"; then
        return
    fi
    if python3 "$top/tools/promises.py" > "$folder/written"; then
        counts_pass
    else
        counts_failure "GUARANTEES.md has a sentence, a clause or an edit that is not there"
        cat "$folder/written"
    fi
    mkdir "$copy"
    cp --parents -r README.md tools/promises.py docs/GUARANTEES.md crates/*/src crates/*/must-fail tests/edits "$copy"
    # shellcheck disable=SC2016 # A page's text.
    for change in 's/^| 18 frames from it/| 17 frames from it/' 's/`takeover_frames` in `law_times` |/`gone_frames` in `law_times` |/' \
        's/clauses `fault` and `complete` |/clauses `fault` and `gone` |/' 's,`law_times/takeover_a_frame_sooner`:,`law_times/gone`:,'; do
        sed "$change" docs/GUARANTEES.md > "$copy/docs/GUARANTEES.md"
        if python3 "$copy/tools/promises.py" > "$folder/written"; then
            counts_failure "tools/promises.py accepts a table after: $change"
        elif [ "$(wc -l < "$folder/written")" -eq 2 ]; then
            counts_pass
        else
            counts_failure "tools/promises.py says something else after: $change"
            cat "$folder/written"
        fi
    done
}

# The list of public calls is to be what the sources have, and no call may leave its answers or its changes unsaid.
calls() {
    if ! command -v python3 > "$folder/written"; then
        return
    fi
    if python3 "$top/tools/calls.py" | cmp -s - "$top/docs/internals/CALLS.md"; then
        counts_pass
    else
        counts_failure "docs/internals/CALLS.md is not what tools/calls.py writes: make calls"
    fi
    if python3 "$top/tools/calls.py" --open > "$folder/written" 2> "$folder/counted" && ! grep -q . "$folder/written"; then
        counts_pass
    else
        counts_failure "a public call leaves something unsaid"
        cat "$folder/written"
    fi
}

# The definitions that a reader has to agree with are to be what the sources have. In a copy a definition is one line longer, and
# another one names what is nowhere.
reading() {
    local copy=$folder/reading
    if ! command -v python3 > "$folder/written"; then
        return
    fi
    if python3 "$top/tools/reading" 2> "$folder/written" | cmp -s - "$top/docs/READING.md"; then
        counts_pass
    else
        counts_failure "docs/READING.md is not what tools/reading writes: make reading"
        cat "$folder/written"
    fi
    mkdir "$copy"
    cp --parents -r crates.txt tools/reading crates/*/specs crates/*/src "$copy"
    sed -i 's/^airtime p n = /airtime p n =\n    /' "$copy/crates/lwb_base/specs/Profile.antt"
    if python3 "$copy/tools/reading" 2> "$folder/written" | cmp -s - "$top/docs/READING.md"; then
        counts_failure "tools/reading does not see that a definition has grown"
    else
        counts_pass
    fi
    sed -i 's/(n + 8) \* p\.byte/(n + 8) * byte_of p/' "$copy/crates/lwb_base/specs/Profile.antt"
    if python3 "$copy/tools/reading" > "$folder/counted" 2> "$folder/written"; then
        counts_failure "tools/reading accepts a name that is nowhere"
    elif grep -q 'Profile.antt:[0-9]*: what is byte_of?' "$folder/written"; then
        counts_pass
    else
        counts_failure "tools/reading says something else of a name that is nowhere"
        cat "$folder/written"
    fi
}

# The pages are to be written in the words of the field.
words() {
    if ! command -v python3 > "$folder/written"; then
        return
    fi
    if python3 "$top/tools/words.py" > "$folder/written"; then
        counts_pass
    else
        counts_failure "the pages have too many words that an engineer would not expect: tools/words.py --list"
        cat "$folder/written"
    fi
    # A page with one such word, and the same in a code span; and one with twelve.
    mkdir -p "$folder/words"
    # shellcheck disable=SC2016 # A page's text.
    printf 'A node hears it, as `heard` says.\n' > "$folder/words/README.md"
    if python3 "$top/tools/words.py" --list "$folder/words" > "$folder/written" &&
        grep -q '^pages: 1 words in 1 files$' "$folder/written" &&
        grep -q '^README.md:1: hears -> receives' "$folder/written"; then
        counts_pass
    else
        counts_failure "tools/words.py does not find a word"
    fi
    printf '%.0sIt stands behind it. ' 1 2 3 4 5 6 > "$folder/words/README.md"
    if python3 "$top/tools/words.py" "$folder/words" > "$folder/written"; then
        counts_failure "tools/words.py accepts twelve words"
    else
        counts_pass
    fi
}

cd "$top" || exit 1
package=$(tools/setup-python.sh --print 2> "$folder/written") || echo "commands of the Python package are left out"
if [ $# -eq 0 ]; then
    set -- README.md CONTRIBUTING.md SECURITY.md docs/*.md docs/internals/*.md docs/internals/proofs/*.md crates/*/README.md
    pictures
    listed
    crate_pages
    names
    calls
    reading
    promises
    words
fi
for one; do
    read_page "$one"
    follow_links "$one"
done
echo "$passed passed, $failed failed"
[ "$failed" -eq 0 ]
