#!/usr/bin/env bash
# The C interface: the header and the examples compile without a warning, in C and in C++. The first example prints what
# document 01 says of M2, with the good moves of request (i), some moves by the book with the goals of request (v), the
# preview of request (iv), a list of withdrawals of request (vi) with its drop list and a return of request (vii) with
# the states gained; the second builds an index of request (viii), makes and withdraws by it, and has it refused for
# another plant; the third turns readings of a gauge into states by the bands of request (xi); the fourth follows a book
# by the desk of request (xii), with a report that is refused. They run under valgrind, where it is installed, without a
# report, and so do calls of the gauge and of the desk at all their edges. The calls' stack is measured.
set -euo pipefail
cd "$(dirname "$0")/.."
mkdir -p target/c
[ -f target/staticlib/libplanbook_c.a ] || tools/archive.sh >target/archive.log 2>&1
flags=(-Wall -Wextra -Werror -pedantic -O2 -g -Iinclude)
for example in strip index gauge desk; do
    gcc -std=c11 "${flags[@]}" "examples/c/$example.c" target/staticlib/libplanbook_c.a -o "target/c/$example"
done
g++ -std=c++17 "${flags[@]}" -fsyntax-only -x c++ include/planbook.h
gcc -std=gnu11 "${flags[@]}" tests/stack.c target/staticlib/libplanbook_c.a -o target/c/stack
for edges in gauge desk; do
    gcc -std=c11 "${flags[@]}" "tests/$edges.c" target/staticlib/libplanbook_c.a -lm -o "target/c/${edges}_edges"
done
for example in strip index gauge desk; do
    "target/c/$example" | diff - "examples/c/$example.out"
done
if command -v valgrind >/dev/null; then
    for program in strip index gauge desk gauge_edges desk_edges; do
        valgrind --quiet --error-exitcode=9 "target/c/$program" >/dev/null
    done
fi
target/c/gauge_edges
target/c/desk_edges
target/c/stack
echo "c: the examples compile without a warning and print what they should"
