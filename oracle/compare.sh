#!/bin/sh
# Random links of every kind on the Rust and on this port, in one process: every row, answer and
# refusal. Stops at the first difference with its link made short. Needs crates/hidvorn/out/libhidvorn.a.
# The kept links come first. With `gabi` the links are of the gABI profile, with `commons` of the old
# one with commons, and what stands for the Rust is the plain reading (driver/src/model).
# KIND: links of one kind alone (oracle/README.md).
# usage: compare.sh [gabi | commons] [SEED [LINKS [KIND]]], or compare.sh list < LIST
set -eu
cd "$(dirname "$0")/../rust"
cargo build -q --release -p compare --bin compare
compare=${CARGO_TARGET_DIR:-target}/release/compare
case ${1:-} in
list | gabi | commons) ;;
*)
    echo "oracle/lists/found.txt:"
    "$compare" list < ../oracle/lists/found.txt
    echo "random links:"
    ;;
esac
exec "$compare" "$@"
