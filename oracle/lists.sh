#!/bin/sh
# Makes the stored lists again, byte for byte the same (of lists/found.txt the answers: its links are
# kept by hand). `lists.sh check` compares instead.
set -eu
cd "$(dirname "$0")"
cargo build -q -j1
oracle=${CARGO_TARGET_DIR:-target}/debug/oracle
made=$(mktemp -d)
trap 'rm -rf "$made"' EXIT

make_list() { # name, kind, seed, count
    {
        echo "# made by: oracle gen $2 $3 $4 | oracle run"
        "$oracle" gen "$2" "$3" "$4"
    } | "$oracle" run > "$made/$1.txt"
}

make_list adds-short  short-adds  0    0
make_list adds        adds        1001 110
make_list merges      merges      1002 110
make_list refusals    refusals    1003 170
make_list shared      shared      1004 130
make_list archives    archives    1005 140
make_list walks       walks       1006 100
make_list collections collections 1007 100
make_list limits      limits      0    0
make_list examples    examples    0    0
"$oracle" run < lists/found.txt > "$made/found.txt"

if [ "${1:-}" = check ]; then
    diff -rq "$made" lists
    echo "the stored lists are the oracle's"
else
    mkdir -p lists
    rm -f lists/*.txt
    cp "$made"/*.txt lists/
    ls -l lists
fi
