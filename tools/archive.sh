#!/usr/bin/env bash
# Proves the calls for C, and leaves their static library at target/staticlib/libplanbook_c.a.
set -euo pipefail
cd "$(dirname "${BASH_SOURCE[0]}")/.."
(cd crates/planbook_c && rt lib)
mkdir -p target/staticlib
cp crates/planbook_c/out/libplanbook_c.a target/staticlib/
