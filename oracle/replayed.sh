#!/bin/sh
# Are the oracle's lists in the input of the program `replay` the stored ones? Each stands behind a line that names it. Needs no Rust.
set -eu
cd "$(dirname "$0")/.."
for list in $(sed -n 's/^# ---- \(oracle\/lists\/.*\)/\1/p' crates/replay/stdin); do
    awk -v line="# ---- $list" '$0 == line { on = 1; next } /^# ---- / { on = 0 } on' crates/replay/stdin | cmp - "$list"
    echo "$list"
done
for list in oracle/lists/*.txt; do
    grep -qxF "# ---- $list" crates/replay/stdin || echo "$list is not replayed"
done
