#!/usr/bin/env bash
# The front end ./foldcairn, in a copy of the repository without the toolchain on the PATH: that it runs the stored program
# where this is the one of the copy's sources and no other, what it says where a call fails, that what it writes on its
# standard output is what the program writes, also of a pipe that is long or that cannot be copied, from which places it can be
# called, and that it leaves nothing but a file in the user's cache. For tests/program.sh, which has says, ends, line and base.
# shellcheck disable=SC2154,SC2016 # tests/program.sh sets the names; the words of a script stay as they are.

# A copy of what git tracks, with the program under test in its bin/.
front_end_copy() {
    copy=$folder/copy
    mkdir "$copy"
    (cd "$top" && { git ls-files -z 2>/dev/null || find . -name out -prune -o -type f -print0; } |
        xargs -0 cp --parents -t "$copy") || return 1
    bare=$folder/bare
    mkdir "$bare"
    for tool in /usr/bin/*; do
        [ "${tool##*/}" = rt ] || ln -s "$tool" "$bare/"
    done
    "$copy/tools/store.sh" "$program"
}

# starts PLACE WORD..: a call of the front end at a place, without rt, and with a cache of its own.
starts() {
    local place=$1
    shift
    (cd "$folder" && PATH=$bare XDG_CACHE_HOME=$folder/cache "$place" "$@" > "$folder/out" 2> "$folder/err")
    status=$?
}

# front WORD..: a call of the copy's front end, by an absolute path.
front() {
    starts "$copy/foldcairn" "$@"
}

# explains NAME STATUS TEXT SENTENCE: how the last call ended, what it wrote, and what its standard error has somewhere.
explains() {
    ends "$1" "$2" "$3"
    says "$1: no word of '$4'" grep -qF -- "$4" "$folder/err"
}

front_end_calls() {
    front --help
    says "--help: status $status" [ "$status" -eq 0 ]
    cp "$folder/out" "$folder/help"
    for word in run log bus flood check deadlines times return demo --prove version help; do
        says "--help does not have $word" grep -q -- "^  foldcairn $word" "$folder/out"
    done
    front help
    ends "help" 0 "$(cat "$folder/help")"$'\n'
    for words in "return --help" "help return" "--help return"; do
        # shellcheck disable=SC2086 # Each word is one of the command's.
        front $words
        ends "the help of a command by '$words'" 0 "$(grep '^  foldcairn return' "$folder/help")"$'\n'
    done
    front --completion
    explains "a completion of no shell" 2 "" "takes bash, zsh or fish"
    for word in version --version; do
        front "$word"
        says "$word: status $status" [ "$status" -eq 0 ]
        says "$word has no version" grep -qx "foldcairn $(cat "$top/VERSION")" "$folder/out"
        says "$word has no checksum" grep -q "^sources of this tree [0-9a-f]\{64\}$" "$folder/out"
    done
    printf '%s' "$line" > "$folder/line.flood"
    front flood line.flood
    ends "a file" 0 $'accept 2 0\naccept 3 1\nsent 6\n'
    front flood < "$folder/line.flood"
    ends "the standard input" 0 $'accept 2 0\naccept 3 1\nsent 6\n'
    front flood < <(cat "$folder/line.flood")
    ends "a pipe" 0 $'accept 2 0\naccept 3 1\nsent 6\n'
    says "a call that does well says something" [ ! -s "$folder/err" ]
    front run "$top/examples/two-contenders.scenario"
    says "run of a file: other report" cmp -s "$folder/out" "$top/examples/expected/two-contenders.report"
}

# Words that are no command: the words of all commands in one line, and the nearest one.
front_end_words() {
    local asked near words
    words="usage: $(sed -n 's/^  foldcairn \([^ ]*\).*/\1/p' "$folder/help" | awk '!seen[$0]++' | paste -sd '|' | sed 's/|/ | /g')"$'\n'
    while read -r asked near; do
        front "$asked" < <(sleep 2)
        explains "the word $asked" 2 "$words" "'$asked' is no command; did you mean $near?"
    done <<'TEXT'
sampel sample
runs run
RUN run
reprot report
dealines deadlines
versoin version
hepl help
TEXT
    for asked in xyzzy foo $'\xff' "$(head -c 100000 /dev/zero | tr '\0' r)"; do
        front "$asked"
        ends "a word that is like none" 2 "$words"
        says "a word that is like none: a guess" fails grep -q "did you mean" "$folder/err"
    done
    front
    explains "no word" 2 "$words" "no command was given"
    if [ -w /dev/full ]; then
        (cd "$folder" && PATH=$bare "$copy/foldcairn" sampel > /dev/full 2> "$folder/err")
        says "no command, to a full device: status $?, not 4" [ $? -eq 4 ]
    fi
}

front_end_sentences() {
    printf 'frames 6\n%srate 1 0 21\n' "$base" > "$folder/rate.scenario"
    front run rate.scenario
    explains "a rate out of range" 1 $'fault line 7: Range\n' 'line 7: `rate 1 0 21`: the third number, the drift, is from -20 to 20 ppm'
    says "a rate out of range: no page" grep -q 'SCENARIO.md has all lines' "$folder/err"
    front run < <(cat "$folder/rate.scenario")
    explains "the same by a pipe" 1 $'fault line 7: Range\n' 'line 7: `rate 1 0 21`'
    printf 'frames 6\n%spiar 1 2\n' "$base" > "$folder/word.scenario"
    front run < "$folder/word.scenario"
    explains "an unknown word" 1 $'fault line 7: BadWord\n' "did you mean \`pair\`?"
    printf 'frames 6\nprofile 1\n' > "$folder/late.scenario"
    front run late.scenario
    explains "a profile that comes late" 1 $'fault line 2: Order\n' "is the first line of the text"
    printf 'frames 6\nframes 6\n' > "$folder/twice.scenario"
    front run twice.scenario
    explains "a line twice" 1 $'fault line 2: Twice\n' "is given already, by line 1"
    printf 'frames 6\nnode 1 0\n' > "$folder/short.scenario"
    front bus short.scenario
    explains "what is missing" 1 $'fault line 3: Missing\n' "lacks a \`sends\` line and a second \`node\` line and a \`host\` line"
    front run "$folder/long"
    explains "a long text" 1 $'fault too long\n' "more than 4,194,304 bytes"
    { printf 'frames 6\n%s' "$base"; printf 'log\ntuned 0 1 6 6\n'; } > "$folder/range.check"
    front check range.check
    explains "a log line out of range" 1 $'fault line 8: Range\n' 'line 8: `tuned 0 1 6 6`: the end is above the start'
    printf 'frames 6\n%s' "$base" > "$folder/no-log.check"
    front check no-log.check
    explains "no log" 1 $'fault line 7: Missing\n' "lacks a line \`log\`"
    printf 'frames 6\n%sratios\nratio 0 1 2 5\n' "$base" > "$folder/small.network"
    for word in run log times return bus check; do
        front "$word" small.network
        case $word in
            run | log) told="for $word, give a seed, by \`foldcairn $word --seed N FILE\`, or draw the losses of a seed first" ;;
            *) told="for $word, draw the losses of a seed first, by \`foldcairn draw SEED FILE\`" ;;
        esac
        explains "ratios for $word" 1 $'fault line 7: BadWord\n' "$told"
        front "$word" nowhere.scenario
        explains "$word of no file" 3 "" "there is no file 'nowhere.scenario'"
        front "$word" "$top"
        explains "$word of a folder" 3 "" "'$top' is a folder, not a file"
    done
    front outcome 7 "$top"
    explains "outcome of a folder" 3 "" "'$top' is a folder, not a file"
    front run a b
    explains "two words" 2 "$usage" "one file at most"
    front demo 07 2 1
    explains "a seed with a leading zero" 2 "$usage" "the seed '07'"
    front demo 7 64 257
    explains "a demo that is too big" 2 "$usage" "64 nodes times 257 frames is 16448"
    front run < "$folder"
    explains "a folder as input" 3 "" "could not be read"
    if [ -w /dev/full ]; then
        (cd "$folder" && PATH=$bare "$copy/foldcairn" flood line.flood > /dev/full 2> "$folder/err")
        says "a full device: status $?, not 4" [ $? -eq 4 ]
        says "a full device: no sentence" grep -q "could not be written" "$folder/err"
    fi
    front demo $'\xff' 2 1
    explains "a word that is no UTF-8" 6 "" "not UTF-8"
}

# A pipe is copied, for the sentence on a line that is rejected: whole or not at all, and nothing is left of it.
front_end_pipes() {
    local flood=$'accept 2 0\naccept 3 1\nsent 6\n' long="$folder/long.scenario" signal
    mkdir "$folder/tmp"
    export TMPDIR=$folder/tmp
    front flood < <(cat "$folder/longest")
    ends "a pipe of as many bytes as are read" 0 "$flood"
    # With one byte less the text would be sound.
    front flood < <(cat "$folder/longest"; echo)
    explains "a pipe of one byte more" 1 $'fault too long\n' "more than 4,194,304 bytes"
    # Cut at any place the text would be another one: its first line is a profile, and the last one says what is sent.
    { echo 'profile 2'; seq -f '# %.0f' 30000; printf 'frames 12\n%s' "$base"; } > "$long"
    front bus < <(cat "$long")
    cp "$folder/out" "$folder/whole"
    says "a long pipe: status $status, not 0" [ "$status" -eq 0 ]
    (trap '' XFSZ; ulimit -f 64; front bus < <(cat "$long"); echo "$status" > "$folder/status")
    status=$(cat "$folder/status")
    explains "a pipe whose copy is too large a file" 3 "" "could not be copied to a file in $TMPDIR"
    (ulimit -f 64; front bus < <(cat "$long"); echo "$status" > "$folder/status") 2> "$folder/written"
    status=$(cat "$folder/status")
    explains "a pipe whose copy a signal ends" 3 "" "could not be copied to a file in $TMPDIR"
    full_folder "$long"
    TMPDIR=/nowhere
    front bus < <(cat "$long")
    ends "a pipe that cannot be copied at all" 0 "$(cat "$folder/whole")"$'\n'
    TMPDIR=$folder/tmp
    for signal in TERM INT KILL; do
        stopped_pipe "$signal"
        says "a pipe of a call that SIG$signal ends leaves a file" [ -z "$(ls -A "$TMPDIR")" ]
    done
    unset TMPDIR
}

# FILE: the same on a file system that is full, where one can be mounted: in a name space of its own, so that nothing stays mounted.
full_folder() {
    if ! unshare --user --map-root-user --mount mount -t tmpfs -o size=64k tmpfs "$TMPDIR" 2> "$folder/written"; then
        echo "left out: a full file system, since none can be mounted" >&2
        return
    fi
    unshare --user --map-root-user --mount bash -c 'mount -t tmpfs -o size=64k tmpfs "$TMPDIR" && cat "$1" | "$2" bus' bash "$1" "$copy/foldcairn" \
        > "$folder/out" 2> "$folder/err"
    status=$?
    explains "a pipe whose copy fills the disk" 3 "" "could not be copied to a file in $TMPDIR"
}

# SIGNAL: a call that is ended by it while its pipe is still open.
stopped_pipe() {
    local caller number
    rm -f "$folder/fifo" && mkfifo "$folder/fifo"
    (cd "$folder" && PATH=$bare exec "$copy/foldcairn" flood < fifo > out 2> err) &
    caller=$!
    exec 9> "$folder/fifo"
    echo '# the beginning' >&9
    # Until the copy has begun.
    for ((number = 0; number < 100; number++)); do
        pgrep -P "$caller" -x head > "$folder/written" && break
        sleep 0.1
    done
    says "a pipe is not copied by head" [ "$number" -lt 100 ]
    kill -s "$signal" "$caller"
    exec 9>&-
    wait "$caller" 2> "$folder/written"
}

# The stored program is run for its own sources alone, and the gate's comparison sees each difference.
front_end_sources() {
    says "the comparison of the copy" "$copy/tools/store.sh" --check "$program" > "$folder/out"
    cp "$copy/bin/foldcairn-x86_64-linux" "$folder/stored"
    printf '\x01' | dd of="$copy/bin/foldcairn-x86_64-linux" bs=1 seek=$(($(stat -c %s "$folder/stored") / 2)) conv=notrunc 2> "$folder/err"
    cmp -s "$folder/stored" "$copy/bin/foldcairn-x86_64-linux" &&
        printf '\x02' | dd of="$copy/bin/foldcairn-x86_64-linux" bs=1 seek=$(($(stat -c %s "$folder/stored") / 2)) conv=notrunc 2> "$folder/err"
    says "one byte of the stored program is changed, and the comparison passes" \
        fails "$copy/tools/store.sh" --check "$program"
    front flood line.flood
    says "a stored program with a byte changed: status $status, not 127" [ "$status" -eq 127 ]
    cp "$folder/stored" "$copy/bin/foldcairn-x86_64-linux"
    front flood line.flood
    ends "the stored program again" 0 $'accept 2 0\naccept 3 1\nsent 6\n'
    echo '// A remark.' >> "$copy/crates/foldcairn/src/main.rt"
    says "SOURCES is old, and the comparison passes" fails "$copy/tools/store.sh" --check "$program"
    front flood line.flood
    explains "changed sources" 127 "" "it has to be proved and built"
    says "changed sources: the toolchain is not asked for" grep -q "toolchain is missing" "$folder/err"
    front_end_looks
}

# What the last look found holds until a file changes: in a clone of git, by a letter in a file that is then no newer, and during the look.
front_end_looks() {
    local source=$copy/crates/foldcairn/src/main.rt flood=$'accept 2 0\naccept 3 1\nsent 6\n'
    looks_again() {
        cp "$top/crates/foldcairn/src/main.rt" "$source"
        for number in 1 2; do
            front flood line.flood
            ends "$1: look $number" 0 "$flood"
        done
    }
    (cd "$copy" && git init -q . && git add . && git -c user.name=A -c user.email=a@example.org commit -q -m first)
    looks_again "a clone"
    echo '// A remark.' >> "$source"
    front flood line.flood
    explains "a changed source of a clone" 127 "" "it has to be proved and built"
    looks_again "its source again"
    sed '1s/./?/' "$source" > "$folder/other"
    touch -r "$source" "$folder/other"
    cat "$folder/other" > "$source"
    touch -r "$folder/other" "$source"
    front flood line.flood
    explains "a source with another letter, of the same size and time" 127 "" "it has to be proved and built"
    looks_again "its source once more"
    # A tool that the look uses changes a source after it was read.
    mkdir "$folder/changing"
    printf '#!/bin/sh\n"%s/xargs" "$@"\necho "// A remark." >> "%s"\n' "$bare" "$source" > "$folder/changing/xargs"
    chmod +x "$folder/changing/xargs"
    touch "$source"
    (bare=$folder/changing:$bare; front flood line.flood)
    front flood line.flood
    explains "a source that changes during a look" 127 "" "it has to be proved and built"
}

# All files of a folder, with their sizes and times.
listing() {
    (cd "$1" && find . -printf '%p %y %s %T@ %C@\n' | LC_ALL=C sort)
}

# Another name on the PATH, a path with blanks, and a folder that is read only. Nothing is written into these.
front_end_places() {
    local flood=$'accept 2 0\naccept 3 1\nsent 6\n' spaced="$folder/a copy  with blanks"
    mkdir "$folder/names"
    ln -s "$copy/foldcairn" "$folder/names/foldcairn"
    ln -s names/foldcairn "$folder/again"
    starts "$folder/again" flood line.flood
    ends "a symlink to a symlink" 0 "$flood"
    says "a symlink: something is written next to it" [ "$(ls "$folder/names")" = foldcairn ]
    (cd "$folder" && PATH=$folder/names:$bare XDG_CACHE_HOME=$folder/cache foldcairn flood line.flood > out 2> err)
    status=$?
    ends "by the PATH" 0 "$flood"
    cp -a "$copy" "$spaced"
    chmod -R a-w "$spaced"
    cp "$folder/line.flood" "$folder/-a line.flood"
    listing "$spaced" > "$folder/before"
    starts "$spaced/foldcairn" flood "-a line.flood"
    ends "blanks in paths, and a read-only folder" 0 "$flood"
    starts "$spaced/foldcairn" flood < <(cat "$folder/line.flood")
    ends "the same from a pipe" 0 "$flood"
    says "the cache has no look at the folder" [ -f "$folder/cache/foldcairn$(realpath "$spaced")/looked" ]
    (cd "$folder" && PATH=$bare XDG_CACHE_HOME=/dev/null "$spaced/foldcairn" flood line.flood > out 2> err)
    status=$?
    ends "without a cache" 0 "$flood"
    says "without a cache something is said" [ ! -s "$folder/err" ]
    says "something is written into a read-only folder" [ "$(listing "$spaced")" = "$(cat "$folder/before")" ]
    says "something is written into bin/" [ ! -e "$copy/bin/out" ]
    chmod -R u+w "$spaced"
    # Another copy at the same path, whose files are no newer than the last look.
    mv "$spaced" "$folder/first"
    cp -a "$copy" "$folder/second"
    echo '// A remark.' >> "$folder/second/crates/foldcairn/src/main.rt"
    mv "$folder/first" "$spaced"
    starts "$spaced/foldcairn" flood line.flood
    ends "back at its path" 0 "$flood"
    mv "$spaced" "$folder/first"
    mv "$folder/second" "$spaced"
    starts "$spaced/foldcairn" flood line.flood
    says "other sources at the path of a copy: status $status, not 127" [ "$status" -eq 127 ]
    rm -rf "$spaced" "$folder/first"
}

# The commands of the package are run by the Python that is named, and by no other.
front_end_package() {
    printf '#!/bin/sh\necho pandas scipy\n' > "$folder/python"
    chmod +x "$folder/python"
    FOLDCAIRN_PYTHON=$folder/python front report line.flood
    explains "a Python that lacks modules" 127 "" "$folder/python lacks pandas scipy: $folder/python -m pip install pandas scipy"
    FOLDCAIRN_PYTHON=/nowhere front report line.flood
    explains "a Python that is not there" 127 "" "/nowhere lacks Python 3.11"
    FOLDCAIRN_PYTHON=/nowhere front run rate.scenario
    explains "a fault without Python" 1 $'fault line 7: Range\n' "foldcairn: line 7: Range"
}

# The program of draws, for which a script is put in its place: it writes its words, and its input after them. A word that the
# package has too is the package's where an option is given, or a word after it that is no number.
front_end_draws() {
    local script=$copy/bin/foldcairn-plan-x86_64-linux
    if [ -e "$script" ]; then
        front outcome 07 line.flood
        explains "a seed with a leading zero" 2 "$(cat "$folder/out")"$'\n' "SEED first"
        front outcome 7 line.flood
        explains "a text that is no network" 1 $'fault line 7: BadWord\n' 'line 7: `start 1`'
        for words in "--seed 7 line.flood" "line.flood --seed 7" "--seed=7 line.flood"; do
            # shellcheck disable=SC2086
            front outcome $words
            explains "outcome by '$words'" 1 $'fault line 7: BadWord\n' 'line 7: `start 1`'
        done
        front outcome line.flood --seed x
        explains "a seed that is no number" 2 "$(cat "$folder/out")"$'\n' "SEED first, a number from 0 to 9999999999999 without leading zeros, and not 'x'"
        printf 'frames 4096\n%s' "$base" > "$folder/long.network"
        for node in 3 4 5 6; do echo "node $node 0"; done >> "$folder/long.network"
        front draw 7 long.network
        explains "a draw that no run takes" 1 "fault line $(($(wc -l < "$folder/long.network") + 1)): TooBig"$'\n' "6 nodes times 4,096 frames are 24,576"
        { printf 'frames 12\n%s' "$base"; printf 'on 0 1\non 0 2\n'; yes 'put 0 1 0 aa' | head -n 19995; printf 'ratios\nratio 0 1 2 0\n'; } > "$folder/full.network"
        front draw 7 full.network
        explains "a draw of too many losses" 1 "fault line $(($(wc -l < "$folder/full.network") + 1)): TooMany"$'\n' "with the losses of the seed the script has more than 20,000 lines"
        front fates 7 long.network
        says "fates over a long horizon: status $status, not 0" [ "$status" -eq 0 ]
        front outcome 7 long.network
        says "a long horizon: status $status, not 0" [ "$status" -eq 0 ]
        front sample 7 2 line.flood
        explains "seeds of a text that is no network" 1 $'fault line 7: BadWord\n' 'line 7: `start 1`'
        front sample line.flood
        says "sample of a file alone is not the package's" [ "$status" -ne 0 -a ! -s "$folder/out" ]
        return
    fi
    front outcome 7 line.flood
    explains "no program of draws" 127 "" "a command of the program foldcairn-plan, which this copy does not have"
    printf '#!/bin/sh\necho "$@"\n[ "$2" = 07 ] && exit 2\ncat\n' > "$script"
    chmod +x "$script"
    cp "$copy/bin/SOURCES" "$folder/SOURCES"
    echo "program foldcairn-plan $(sha256sum < "$script" | cut -d ' ' -f 1)" >> "$copy/bin/SOURCES"
    front outcome 7 line.flood
    ends "outcome of a file" 0 "outcome 7"$'\n'"$line"
    front outcome 7 < <(cat "$folder/line.flood")
    ends "outcome of a pipe" 0 "outcome 7"$'\n'"$line"
    for words in "--seed 7 line.flood" "line.flood --seed 7" "--seed=7 line.flood"; do
        # shellcheck disable=SC2086
        front outcome $words
        ends "outcome by '$words'" 0 "outcome 7"$'\n'"$line"
    done
    front outcome 7 nowhere
    ends "outcome of no file" 0 "outcome 7 nowhere"$'\n'
    front outcome 07 nowhere
    explains "a seed with a leading zero" 2 $'outcome 07 nowhere\n' "outcome takes SEED first, a number from 0 to 9999999999999 without leading zeros, and not '07'"
    front fates 7 line.flood
    ends "fates of a file" 0 "fates 7"$'\n'"$line"
    front draw 7 line.flood
    ends "a draw of a file" 0 "draw 7"$'\n'"$line"
    front sample 7 2 line.flood
    ends "two seeds of a file" 0 "sample 7 2"$'\n'"$line"
    front --help
    says "--help does not have outcome" grep -q '^  foldcairn outcome SEED \[FILE\]' "$folder/out"
    says "--help does not have sample" grep -q '^  foldcairn sample FROM COUNT \[FILE\]' "$folder/out"
    says "--help does not have fates" grep -q '^  foldcairn fates SEED \[FILE\]' "$folder/out"
    says "--help does not have draw" grep -q '^  foldcairn draw SEED \[FILE\]' "$folder/out"
    front draw line.flood --ratios none.csv
    says "draw with an option is not the package's" [ "$status" -ne 0 -a ! -s "$folder/out" ]
    front sample line.flood
    says "sample of a file alone is not the package's" [ "$status" -ne 0 -a ! -s "$folder/out" ]
    rm "$script"
    cp "$folder/SOURCES" "$copy/bin/SOURCES"
}

# The stored program alone, by a link on the PATH: it reads its standard input, and a file that is named is no word of its. The
# help and INSTALL.md say so.
front_end_alone() {
    mkdir "$folder/alone"
    ln -s "$copy/bin/foldcairn-x86_64-linux" "$folder/alone/foldcairn"
    (cd "$folder" && PATH=$folder/alone:$bare foldcairn flood < line.flood > out 2> err)
    status=$?
    ends "the stored program alone" 0 $'accept 2 0\naccept 3 1\nsent 6\n'
    (cd "$folder" && PATH=$folder/alone:$bare foldcairn flood line.flood > out 2> err)
    status=$?
    ends "the stored program alone with a file" 2 "$usage"
    front --help
    says "the help does not say how the stored program reads" grep -qx "  foldcairn-x86_64-linux run < FILE" "$folder/out"
    says "INSTALL.md does not say how the stored program reads" grep -qF '`foldcairn-x86_64-linux run < FILE`' "$top/docs/INSTALL.md"
}

# A copy that was installed has no sources, and runs what it has.
front_end_installed() {
    local installed=$folder/installed
    if ! "$copy/tools/installed.sh" "$installed"; then
        says "a copy can be installed" false
        return
    fi
    listing "$installed" > "$folder/before"
    starts "$installed/foldcairn" flood line.flood
    ends "an installed copy" 0 $'accept 2 0\naccept 3 1\nsent 6\n'
    starts "$installed/foldcairn" run rate.scenario
    explains "a copy without the package names the line" 1 $'fault line 7: Range\n' "foldcairn: line 7: Range"
    says "a copy without the package: no page" grep -q 'SCENARIO.md has all lines' "$folder/err"
    starts "$installed/foldcairn" report rate.scenario
    explains "a copy without the package" 127 "" "'report' is a command of the Python package, which this copy does not have"
    starts "$installed/foldcairn" --prove
    explains "an installed copy is not proved" 2 "" "installed without the sources"
    starts "$installed/foldcairn" --version
    says "an installed copy has a version of sources" [ "$status" -eq 0 -a "$(grep -c '^sources of this tree' "$folder/out")" -eq 0 ]
    starts "$installed/foldcairn" --help
    says "its help names an example" [ -f "$(sed -n 's/^  foldcairn run \(\/.*\)/\1/p' "$folder/out")" ]
    (cd "$folder" && PATH=$folder/nothing FOLDCAIRN_PYTHON=/nowhere /bin/sh "$installed/foldcairn" flood line.flood > out 2> err)
    says "without any tool on the PATH it starts" [ $? -ne 0 ]
    says "something is written into an installed copy" [ "$(listing "$installed")" = "$(cat "$folder/before")" ]
}

fails() {
    ! "$@" > "$folder/written" 2>&1
}

front_end() {
    if front_end_copy; then
        front_end_calls
        front_end_words
        front_end_sentences
        front_end_pipes
        front_end_package
        front_end_places
        front_end_draws
        front_end_alone
        front_end_installed
        front_end_sources
    else
        says "a copy of the repository can be made" false
    fi
}
