#!/bin/sh
# Runs an addsheet program on random sheets and compares what it prints with the Rust's answers. Each sheet is read to its end, so its status must be 0.
# usage: compare-sheets.sh ADDSHEET [SEED [COUNT]]
set -eu
addsheet=$1
case $addsheet in */*) ;; *) addsheet=./$addsheet ;; esac
addsheet=$(cd "$(dirname "$addsheet")" && pwd)/$(basename "$addsheet")
seed=${2:-1}
count=${3:-10000}
cd "$(dirname "$0")"
cargo build -q -j1
oracle=${CARGO_TARGET_DIR:-target}/debug/oracle
folder=$(mktemp -d)
trap 'rm -rf "$folder"' EXIT
"$oracle" gen sheets "$seed" "$count" "$folder"
different=0
at=0
while [ "$at" -lt "$count" ]; do
    status=0
    "$addsheet" < "$folder/$at.sheet" > "$folder/printed" || status=$?
    if [ "$status" != 0 ] || ! cmp -s "$folder/printed" "$folder/$at.expected"; then
        different=$((different + 1))
        if [ "$different" = 1 ]; then
            echo "first difference: sheet $at of seed $seed, status $status"
            cat "$folder/$at.sheet"
            diff "$folder/$at.expected" "$folder/printed" || true
        fi
    fi
    at=$((at + 1))
done
echo "$count sheets, $different different"
[ "$different" = 0 ]
