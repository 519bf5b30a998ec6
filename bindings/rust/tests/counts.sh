#!/usr/bin/env bash
# Instructions of the proved library for one make and one withdrawal of the highest move, for the building of an index
# and for one make and one withdrawal by it, as callgrind counts them, with 512 and 1,024 states, and how they grow as an
# exponent: 1 is linear in the states, 2 quadratic. What is printed is the mean over the plants of each family. Counts do
# not change with what else the machine does.
#
#   tests/counts.sh [FAMILY...]
#
# Without a name all families are counted but the slow ones, for which callgrind may take many minutes. PLANTS sets how
# many plants there are of each family (12).
set -euo pipefail
cd "$(dirname "$0")/.."
cargo build --quiet --release --offline --bin bench
metadata=$(cargo metadata --offline --no-deps --format-version 1)
bench=$(sed 's/.*"target_directory":"\([^"]*\)".*/\1/' <<<"$metadata")/release/bench
work=$(mktemp -d)
trap 'rm -rf "$work"' EXIT

calls=(make withdraw index make_indexed withdraw_indexed)

# The instructions of each of these calls, for a family and a number of states.
counts() {
    local plants
    plants=$(valgrind --quiet --tool=callgrind --callgrind-out-file="$work/out" \
        "$bench" --count "$1" "$2" "${PLANTS:-12}" 2>"$work/log") || { cat "$work/log" >&2; return 1; }
    callgrind_annotate --inclusive=yes --threshold=100 --show-percs=no "$work/out" >"$work/costs"
    for call in "${calls[@]}"; do
        awk -v name=":planbook_$call\$" -v plants="$plants" '
            $2 ~ name && !found { gsub(",", "", $1); printf "%.0f ", $1 / plants; found = 1 }
            END { if (!found) exit 1 }' "$work/costs"
    done
}

if [ $# = 0 ]; then
    mapfile -t families < <("$bench" --families)
else
    families=("$@")
fi
printf '%-17s%-18s%14s%14s%9s\n' family call 512 1024 growth
for family in "${families[@]}"; do
    half=$(counts "$family" 512)
    whole=$(counts "$family" 1024)
    awk -v family="$family" -v calls="${calls[*]}" -v half="$half" -v whole="$whole" 'BEGIN {
        split(half, a, " "); split(whole, b, " ")
        for (i = 1; i <= split(calls, name, " "); i++)
            printf "%-17s%-18s%14d%14d%9.2f\n", family, name[i], a[i], b[i], log(b[i] / a[i]) / log(2)
    }'
done
