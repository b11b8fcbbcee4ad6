#!/bin/sh
# Runs a module of this copy's Python package, and never that of another copy, by a Python that has what it needs: that which
# FOLDCAIRN_PYTHON names, else Debian's or that of the PATH. Where there is none it says what is missing, with status 127.
# Usage: tools/in_python.sh foldcairn | foldcairn.model.faults [WORD..]
set -u
top=$(cd "$(dirname "$0")/.." && pwd) || exit 1
commands=$top/tools/commands.txt
module=$1
shift
# What explains a rejected line needs Python alone.
needed=
[ "$module" != foldcairn ] || needed=$(sed -n 's/^modules|\([^|]*\)|.*/\1/p' "$commands")

say() {
    echo "foldcairn: $*" >&2
}

# Puts the folder of the package before all others: that of a clone, that above what a wheel installed, or Debian's.
find_package() {
    for folder in "$top/python/src" "$top/../.." "$top/../python3/dist-packages"; do
        if [ -f "$folder/foldcairn/model/faults.py" ]; then
            PYTHONPATH=$(cd "$folder" && pwd)${PYTHONPATH:+:$PYTHONPATH}
            export PYTHONPATH
            return
        fi
    done
    say "'${1-}' is a command of the Python package, which this copy does not have"
    exit 127
}

# PYTHON WORD..: becomes that Python on the words, where it lacks nothing. Sets lacks to the modules that it lacks.
run_by() {
    python=$1
    shift
    # shellcheck disable=SC2086 # The names are words each.
    lacks=$("$python" -P -c 'import importlib.util, sys
print(*(name for name in sys.argv[1:] if importlib.util.find_spec(name) is None))' $needed 2>/dev/null) && [ -z "$lacks" ] &&
        exec "$python" -P -m "$module" "$@"
}

# FIELD: Debian's packages of the modules in that field of the list: 2 has those that are required, 3 the optional ones.
debian_packages() {
    awk -F '|' -v field="$1" '$1 == "modules" { gsub(/[a-z]+/, "python3-&", $field); print $field }' "$commands"
}

find_package "$@"
if [ -n "${FOLDCAIRN_PYTHON-}" ]; then
    run_by "$FOLDCAIRN_PYTHON" "$@"
    say "'${1-}' needs Python 3.11 or later with these modules: $needed. $FOLDCAIRN_PYTHON lacks ${lacks:-Python 3.11}${lacks:+: $FOLDCAIRN_PYTHON -m pip install $lacks}"
else
    run_by /usr/bin/python3 "$@"
    run_by python3 "$@"
    say "'${1-}' needs Python 3.11 or later with these modules: $needed. On Debian, with what pictures and pages need:"
    say "apt-get install $(debian_packages 2) $(debian_packages 3)"
fi
exit 127
