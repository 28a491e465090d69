#!/bin/sh
# The time of each call and the memory, this port's and the Rust's: the tables of
# docs/PERFORMANCE.md. usage: bench.sh [NAME ...]
set -eu
cd "$(dirname "$0")/../rust"
cargo build -q --release -p compare --bin bench
exec "${CARGO_TARGET_DIR:-target}/release/bench" "$@"
