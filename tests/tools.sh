#!/usr/bin/env bash
# Tests of ./run and the tools, with the planner that PLANBOOK_BIN names, or else with target/bin/planbook, and with the
# library that PLANBOOK_LIB names, or else with the one that ./run has for the gauge and the desk. Words name the tests
# to run, as test_desk or test_tools.Gauge; without any, all are run. The last line is OK, and the exit status 0, when
# all pass.
set -euo pipefail
cd "$(dirname "${BASH_SOURCE[0]}")/.."

PLANBOOK_BIN=${PLANBOOK_BIN:-$PWD/target/bin/planbook}
if [ ! -x "$PLANBOOK_BIN" ]; then
    echo "tests: planbook is not built; './run' builds it, or PLANBOOK_BIN names another one" >&2
    exit 3
fi
PLANBOOK_BIN=$(realpath "$PLANBOOK_BIN")
if [ -z "${PLANBOOK_LIB:-}" ]; then
    ./run gauge examples/gauge-bands.bands 2 2 >/dev/null || exit 3
    PLANBOOK_LIB=target/libplanbook.so
fi
PLANBOOK_LIB=$(realpath "$PLANBOOK_LIB")
# The interpreter itself: one that is chosen anew by a wrapper at each start would take most of the time.
PATH=$(python3 -c 'import os, sys; print(os.path.dirname(sys.executable))'):$PATH
export PATH PLANBOOK_BIN PLANBOOK_LIB PYTHONDONTWRITEBYTECODE=1
[ $# -ge 1 ] || set -- test_tools test_desk
cd tests
exec python3 -m unittest "$@"
