#!/bin/sh
# Checks what no test runs: the types of the Python package, the exporter and tools/reading by mypy --strict, unused and undefined names, forms and
# line lengths of all Python by ruff, the shell scripts by shellcheck, and by tools/tidy.py what is too long in .rt and .antt files and
# what crates.txt lists without need. The docstrings of what the package makes public are checked by numpydoc's validation, and
# tools/docstrings.py says by which checks. Debian 12 has no ruff: where it is missing, pyflakes and pycodestyle check
# the same rules (those of [tool.ruff.lint] in python/pyproject.toml). The modules of the planner's page are checked by tsc and eslint, where they
# are there (Debian's node-typescript and eslint).
#
# Usage: tools/lint.sh
#
# Status 0 if nothing is wrong; 1 if something is, or a program is missing: Debian's packages are mypy, python3-numpydoc, python3-pyflakes,
# python3-pycodestyle and shellcheck, which `tools/setup-python.sh --optional` installs. Tested, not proved.
set -u

cd "$(dirname "$0")/.." || exit 1
python=$(tools/setup-python.sh --print) || exit 1
failed=0

run() {
    "$@" || failed=1
}

# Types, from the folder that has the settings.
(cd python && "$python" -m mypy) || failed=1
# These modules are imported by their names.
(cd tools/export && "$python" -m mypy --strict --cache-dir=/dev/null ./*.py tests/*.py) || failed=1
(cd tools/reading && "$python" -m mypy --strict --cache-dir=/dev/null ./*.py) || failed=1

sources=$(git ls-files '*.py')
if command -v ruff >/dev/null 2>&1; then
    # The names have no spaces, and each is a word of its own.
    # shellcheck disable=SC2086
    run ruff check --config python/pyproject.toml $sources
else
    # shellcheck disable=SC2086
    run "$python" -m pyflakes $sources
    # W503 and W504 say the opposite of each other, and ruff has neither. The head of a page is one line a paragraph.
    # shellcheck disable=SC2086
    run "$python" -m pycodestyle --select=E4,E5,E7,E9,W1,W2,W3,W6 --max-line-length=160 --exclude=tools/calls.py,tools/words.py $sources
fi

# Docstrings of what `__all__` of the public modules names: functions, and classes with their methods and properties.
run "$python" tools/docstrings.py

# The modules of the planner's page: their types and what is unused by tsc, and the rules of tools/eslint. eslint is told where Debian has its
# libraries, since another node than Debian's does not look there.
page=python/src/foldcairn/studio/page
if command -v tsc >/dev/null 2>&1; then
    run tsc -p $page/tsconfig.json
else
    echo "tools/lint.sh: there is no tsc (Debian's node-typescript), so the types of the planner's page are not checked"
fi
if command -v eslint >/dev/null 2>&1; then
    run env NODE_PATH=/usr/share/nodejs eslint --no-eslintrc -c tools/eslint/rules.json $page/js
else
    echo "tools/lint.sh: there is no eslint, so the rules of tools/eslint are not checked"
fi

# Those that other scripts read have the variables of these, and [ a -ot b ] is in all shells of Debian.
fragments='tests/counted_calls.sh tests/front_end.sh tests/install_debian.sh tests/statuses.sh tests/verdicts.sh tests/worked.sh'
# shellcheck disable=SC2046
run shellcheck -S warning -e SC3013 $(git ls-files '*.sh' foldcairn .ci/run | grep -vxF "$(printf '%s\n' $fragments)")
# shellcheck disable=SC2086
run shellcheck -S warning -e SC2154 $fragments

# Columns, lengths of files and functions, and edges between crates; and the package's limits, which are those of the sources.
run "$python" tools/tidy.py
run "$python" tools/limits.py --check

exit $failed
