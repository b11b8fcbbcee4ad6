#!/bin/sh
# Installs what the Python package in python/ needs: Debian's packages of pandas, networkx, matplotlib, plotly,
# jinja2, tqdm, scipy, statsmodels, tomlkit, pytest and hypothesis, for Debian's /usr/bin/python3. With --optional it also installs what only some tests
# and `make lint` need: chromium and tshark, which open the pages and the captures that the package writes, nodejs, which runs modules of the
# planner's page, distributed (Dask), optuna and openpyxl, which large searches and tables for Excel use,
# pytest-cov, mypy, numpydoc, pyflakes, pycodestyle, shellcheck, eslint and tsc, and valgrind, which counts instructions. Tests that need one of them are skipped
# where it is missing, and say so.
#
# Usage: tools/setup-python.sh [--check | --print | --optional]
#
# Without a word it installs what is missing, by apt-get, as root or by sudo where sudo asks for no password. With --check it
# installs nothing, and says what is missing, also of the optional programs. With --print it writes the path of the first
# Python that has all of them (/usr/bin/python3 is tried first) and nothing else. Status 0 if all is there at the end; 1 if
# something is missing, and then the missing modules and the command that installs them are named on standard error; 2 for
# other words. Tested, not proved.
set -u

modules='pandas networkx matplotlib plotly jinja2 tqdm scipy statsmodels tomlkit pytest hypothesis'
# Programs and modules that only some tests and the checks of `make lint` use; a program has the name of its Debian package, or that after the colon.
programs='chromium nodejs tshark shellcheck valgrind eslint tsc:node-typescript'
optional='distributed optuna openpyxl pytest_cov mypy numpydoc pyflakes pycodestyle'
debian=/usr/bin/python3

say() {
    echo "setup-python.sh: $*" >&2
}

# Which of the modules that are named a Python lacks, or all where it is none or older than 3.11.
missing_of() {
    "$@" 2>/dev/null <<'PYTHON' || { shift 2 && echo "$*"; }
import importlib.util
import sys

if sys.version_info < (3, 11):
    sys.exit(1)
print(*(name for name in sys.argv[1:] if importlib.util.find_spec(name) is None))
PYTHON
}

# The modules that a Python lacks of those that the package needs, and of the optional ones.
missing_modules() {
    # The names have no spaces, and each is a word of its own.
    # shellcheck disable=SC2086
    missing_of "$1" - $modules
}

missing_optional() {
    # shellcheck disable=SC2086
    missing_of "$1" - $optional
}

# The Debian packages of modules.
packages_of() {
    for module in "$@"; do
        printf 'python3-%s ' "$module" | tr _ -
    done
}

# The path of the first Python that lacks nothing.
whole_python() {
    for python in "$debian" "$(command -v python3 || true)"; do
        if [ -n "$python" ] && [ -x "$python" ] && [ -z "$(missing_modules "$python")" ]; then
            echo "$python"
            return 0
        fi
    done
    return 1
}

# The Debian packages of the optional programs that are not there.
missing_programs() {
    for program in $programs; do
        command -v "${program%:*}" >/dev/null 2>&1 || printf '%s ' "${program#*:}"
    done
}

# Runs a command as root, where that is allowed.
as_root() {
    if [ "$(id -u)" -eq 0 ]; then
        "$@"
    else
        sudo -n "$@"
    fi
}

# Installs the Debian packages whose names are given.
install_packages() {
    if ! command -v apt-get >/dev/null 2>&1; then
        say "there is no apt-get on this system"
        return 1
    fi
    if [ "$(id -u)" -ne 0 ] && ! sudo -n true >/dev/null 2>&1; then
        say "this user may not install packages"
        return 1
    fi
    as_root env DEBIAN_FRONTEND=noninteractive apt-get -q update >&2 || say "the package lists could not be updated"
    as_root env DEBIAN_FRONTEND=noninteractive apt-get -q -y -o DPkg::Lock::Timeout=300 --no-install-recommends install "$@" >&2
}

mode=${1:-}
[ $# -le 1 ] || mode=unknown
case $mode in
    '' | --check | --print | --optional) ;;
    *)
        say "usage: tools/setup-python.sh [--check | --print | --optional]"
        exit 2
        ;;
esac

if ! python=$(whole_python) && { [ -z "$mode" ] || [ "$mode" = --optional ]; }; then
    # The names have no spaces, and each is a word of its own.
    # shellcheck disable=SC2046
    install_packages python3 python3-setuptools $(packages_of $(missing_modules "$debian"))
    python=$(whole_python)
fi

if [ -z "$python" ]; then
    say "missing in $debian: $(missing_modules "$debian")"
    # shellcheck disable=SC2086
    say "install on Debian or Ubuntu: apt-get install python3 $(packages_of $modules)"
    say "elsewhere: pip install $modules"
    exit 1
fi
if [ "$mode" = --print ]; then
    echo "$python"
    exit 0
fi
say "$python has what the package needs"
if [ "$mode" = --optional ] && [ -n "$(missing_programs)$(missing_optional "$python")" ]; then
    # shellcheck disable=SC2046
    install_packages $(missing_programs) $(packages_of $(missing_optional "$python"))
fi
missing="$(missing_programs)$(missing_optional "$python")"
if [ -n "$missing" ]; then
    # shellcheck disable=SC2046
    say "optional, and missing: ${missing% } (apt-get install $(missing_programs)$(packages_of $(missing_optional "$python"))); tests that need them are skipped"
    [ "$mode" != --optional ] || exit 1
fi
