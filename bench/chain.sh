#!/usr/bin/env bash
# Prints what one operation on a chain of 1,000, 10,000 and 100,000 versions costs, in nanoseconds, and how that grows.
# push_stamp is a commit, over the whole building of the chain; the others are done at its full length. push_pop writes
# and takes back, version_at undoes three deltas, and cut_below drops one.
# The growth of each should be about 1: no operation depends on the chain's length.
# Build the program first, by `rt run` in crates/chain_bench or by `rt ci` at the top.
set -euo pipefail
cd "$(dirname "$0")/.."
program=crates/chain_bench/out/chain_bench
sizes=(1000 10000 100000)
tries=9

if [ ! -x "$program" ]; then
    echo "no $program: run 'rt run' in crates/chain_bench first" >&2
    exit 1
fi

# The least cost of a thousand rounds of each operation over some tries, as lines `size operation cost`.
costs() {
    for size in "${sizes[@]}"; do
        for ((i = 0; i < tries; i++)); do
            "$program" "$size"
        done | awk -v size="$size" '
            $1 != "sums" { if (!($1 in least) || $2 < least[$1]) least[$1] = $2 }
            END { for (name in least) print size, name, least[name] }'
    done
}

costs | awk '
    { cost[$2, $1] = $3; names[$2] = 1 }
    END {
        printf "%-12s %8s %8s %8s  growth\n", "operation", "1000", "10000", "100000"
        count = split("push_stamp push_pop version_at cut_below", order, " ")
        for (i = 1; i <= count; i++) {
            name = order[i]
            first = cost[name, 1000]; last = cost[name, 100000]
            growth = first > 0 ? sprintf("%.2f", last / first) : "-"
            printf "%-12s %8.1f %8.1f %8.1f  %s\n", name, first / 1000, cost[name, 10000] / 1000, last / 1000, growth
        }
    }'
