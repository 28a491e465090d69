#!/bin/sh
# How often each refusal occurs in each stored list, as a table; `count.sh all` also prints every
# kind of answer by operation.
set -eu
cd "$(dirname "$0")"
cargo build -q -j1
oracle=${CARGO_TARGET_DIR:-target}/debug/oracle
if [ "${1:-}" = all ]; then
    for list in lists/*.txt; do
        echo "== $list"
        "$oracle" count < "$list"
    done
fi
for list in lists/*.txt; do
    sed -n 's/^> \(offer [0-9]* \)\{0,1\}refused \([0-9]*\) .*/\2/p' "$list" |
        sed "s|^|$(basename "$list" .txt) |"
done | awk '
    { count[$1, $2]++; total[$2]++; if (!($1 in seen)) { seen[$1]; lists[++n] = $1 } }
    END {
        printf "| refusal |"; for (i = 1; i <= n; i++) printf " %s |", lists[i]; print " all |"
        printf "|---|"; for (i = 1; i <= n; i++) printf "---|"; print "---|"
        for (number = 1; number <= 25; number++) if (number in total) {
            printf "| %d |", number
            for (i = 1; i <= n; i++) printf " %d |", count[lists[i], number]
            printf " %d |\n", total[number]
        }
    }'
