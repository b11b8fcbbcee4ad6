#!/bin/sh
# Runs the tests of the Python package with the program, and installs what they need where that is allowed. pytest writes how
# many passed, which tests were skipped because something optional is missing, and how much processor time all of them took.
#
# With CI=true it also installs what is optional and needs all of it: a skipped test fails, and so does a coverage of the
# package's lines below 99 %. Processor time above 320 s is said in red, and fails nothing (python/tests/gate.py says why).
# Usage: tests/python.sh PROGRAM [pytest's words ..]
set -eu
top=$(cd "$(dirname "$0")/.." && pwd)
FOLDCAIRN=$(realpath "${1:?the program}")
PYTHONPATH=$top/python/src
export FOLDCAIRN PYTHONPATH
shift
if [ "${CI:-}" = true ]; then
    "$top/tools/setup-python.sh" --optional
    set -- --cov=foldcairn --cov-report=term:skip-covered --cov-fail-under=99 "$@"
else
    "$top/tools/setup-python.sh"
fi
python=$("$top/tools/setup-python.sh" --print)
cd "$top/python"
exec "$python" -m pytest -q -rs -p no:cacheprovider tests "$@"
