#!/usr/bin/env bash
# The must-fail edits, by what `rt ci` printed, which is the file that is named: all were refused, none was bad or
# refused only by a limit of the prover, and none just because a proof names what the edit took away. The prover refuses
# such an edit too, and that shows nothing. Of edits that an earlier run has tried, rt says no more than their number.
# Whether an edit keeps the code's shape is left to whoever writes it.
set -euo pipefail
said=$(realpath "${1:?what rt ci printed}")
cd "$(dirname "$0")/.."
shopt -s nullglob
edits=(crates/*/must-fail/*.edit)
[ "${#edits[@]}" -gt 0 ] || { echo "edits: there are none"; exit 1; }
grep -q "^rt: ok;.*; must-fail edits: ${#edits[@]} refused;" "$said" || {
    echo "edits: of ${#edits[@]} not all were refused for what they say:"
    grep -E '^rt: (ok|must-fail .*: (BAD|NOT))' "$said" || :
    exit 1
}
told=$(grep -c '^rt: must-fail .*: refused, as it must be' "$said") || :
if grep -E '^rt: must-fail .*: refused, .*(\(only b|declarations? that depend)' "$said"; then
    echo "edits: refused for a missing name, or by a limit, as told above"
    exit 1
fi
echo "edits: ${#edits[@]} are refused; of the $told tried in this run none for a missing name"
