#!/usr/bin/env bash
# Pictures on paper and in a browser: prints pictures with a headless Chromium and looks for every state in the PDF,
# then tries the keys and the dark style. Needs Chromium and pdftotext; where one is missing this is left out, and said.
# The planner is the one that PLANBOOK_BIN names, or else target/bin/planbook.
set -euo pipefail
cd "$(dirname "${BASH_SOURCE[0]}")/.."

PLANBOOK_BIN=${PLANBOOK_BIN:-$PWD/target/bin/planbook}
if [ ! -x "$PLANBOOK_BIN" ]; then
    echo "paper: planbook is not built; './run' builds it, or PLANBOOK_BIN names another one" >&2
    exit 3
fi
PLANBOOK_BIN=$(realpath "$PLANBOOK_BIN")
browser=$(command -v chromium || command -v chromium-browser || command -v google-chrome || true)
if [ -z "$browser" ]; then
    echo "paper: left out, for there is no Chromium here (chromium, chromium-browser or google-chrome)"
    exit 0
fi
if ! command -v pdftotext >/dev/null; then
    echo "paper: left out, for there is no pdftotext here (Debian has it in poppler-utils)"
    exit 0
fi
export PLANBOOK_BIN PYTHONDONTWRITEBYTECODE=1
exec python3 tests/paper.py "$browser"
