#!/bin/sh
# Writes the completion of the command foldcairn for a shell: the commands that its help has, then files, and the options of a command
# and the words that an option may have, which are read off the help of that command.
# Usage: tools/completion.sh bash | zsh | fish
set -u
top=$(cd "$(dirname "$0")/.." && pwd) || exit 1

# A row 'WORD:ABOUT' for each command, in the order of the help, in which ABOUT begins in the 40th column. A word that two
# programs have comes once.
rows() {
    "$top/tools/help.sh" | awk '/^  foldcairn / && !($2 in seen) { seen[$2] = 1; print $2 ":" substr($0, 40) }'
}

words() {
    rows | sed 's/:.*//' | tr '\n' ' ' | sed 's/ $//'
}

bash_completion() {
    cat <<TEXT
# bash completion of foldcairn
_foldcairn() {
    local commands='$(words)' words=
    COMPREPLY=()
    if [ "\$COMP_CWORD" -eq 1 ]; then
        words=\$commands
    elif [ "\$COMP_CWORD" -eq 2 ] && [ "\$3" = --completion ]; then
        words='bash zsh fish'
    elif [ "\$COMP_CWORD" -eq 2 ] && [ "\$3" = help ]; then
        words=\$commands
    elif [[ \$2 == -* ]]; then
        words="--help \$("\$1" "\${COMP_WORDS[1]}" --help 2>/dev/null | grep -oE -- '--[a-z][a-z-]*')"
    elif [[ \$3 == --* ]]; then
        words=\$("\$1" "\${COMP_WORDS[1]}" --help 2>/dev/null | sed -n "s/^ *\$3 {\\([^}]*\\)}.*/\\1/p" | tr , ' ')
    fi
    [ -z "\$words" ] || mapfile -t COMPREPLY < <(compgen -W "\$words" -- "\$2" | sort -u)
}
complete -o default -F _foldcairn foldcairn
TEXT
}

zsh_completion() {
    described=$(rows | sed "s/'/'\\\\''/g; s/.*/        '&'/")
    cat <<TEXT
#compdef foldcairn
# zsh completion of foldcairn
_foldcairn() {
    local -a commands choices
    local called=\${(Q)\${~words[1]}}
    commands=(
$described
    )
    if (( CURRENT == 2 )) || { (( CURRENT == 3 )) && [[ \$words[2] == help ]] }; then
        _describe command commands
    elif (( CURRENT == 3 )) && [[ \$words[2] == --completion ]]; then
        _values shell bash zsh fish
    elif [[ \$PREFIX == -* ]]; then
        compadd -- --help \$(\$called \$words[2] --help 2>/dev/null | grep -oE -- '--[a-z][a-z-]*' | sort -u)
    else
        if [[ \$words[CURRENT-1] == --* ]]; then
            choices=(\$(\$called \$words[2] --help 2>/dev/null | sed -n "s/^ *\$words[CURRENT-1] {\\([^}]*\\)}.*/\\1/p" | tr , ' '))
        fi
        if (( \$#choices )); then
            compadd -- \$choices
        else
            _files
        fi
    fi
}
if [ "\$funcstack[1]" = _foldcairn ]; then
    _foldcairn "\$@"
else
    compdef _foldcairn foldcairn
fi
TEXT
}

fish_completion() {
    cat <<'TEXT'
# fish completion of foldcairn
function __foldcairn_help
    set -l before (commandline -opc)
    command $before[1] $before[2] --help 2>/dev/null
end
function __foldcairn_options
    __foldcairn_help | string match -ar -- '--[a-z][a-z-]*' | sort -u
end
function __foldcairn_choices
    set -l before (commandline -opc)
    string match -q -- '--*' "$before[-1]"; and test (count $before) -ge 3
    and __foldcairn_help | string replace -rf -- "^ *$before[-1] \{([^}]*)\}.*" '$1' | string split ,
end
TEXT
    rows | sed "s/'/\\\\\\'/g; s/^\\([^:]*\\):\\(.*\\)/complete -c foldcairn -n __fish_use_subcommand -f -a '\\1' -d '\\2'/"
    echo "complete -c foldcairn -n '__fish_seen_subcommand_from --completion' -f -a 'bash zsh fish'"
    echo "complete -c foldcairn -n '__fish_seen_subcommand_from help' -f -a '$(words)'"
    echo "complete -c foldcairn -n 'not __fish_use_subcommand; and string match -q -- \"-*\" (commandline -ct)' -f -a '--help (__foldcairn_options)'"
    echo "complete -c foldcairn -n 'not __fish_use_subcommand' -a '(__foldcairn_choices)'"
}

case ${1-} in
    bash | zsh | fish) "$1_completion" ;;
    *)
        echo "foldcairn: --completion takes bash, zsh or fish" >&2
        exit 2
        ;;
esac
