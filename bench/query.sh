#!/usr/bin/env bash
# Prints what parts of a query cost on graphs of 1,000, 10,000 and 100,000 vertices with twice as many edges, in
# nanoseconds, and how that grows:
#
#   bound      a pattern of one edge from a vertex that is known, for each time that it is asked
#   hops       patterns of two edges over the whole graph, for each edge that is walked
#   scan       all vertices by a label that one has, for each vertex
#   distinct   DISTINCT of rows that are all different, for each row
#   groups     count(*) of rows with a key of their own each, for each row
#   few        count(*) of rows in a hundred groups, for each row
#   order      ORDER BY of scattered numbers, for each row
#
# What a statement without that part takes is taken off, but for hops and scan. The growth is a cost by that of the first
# column; it should stay near 1, but for order, which grows as the logarithm. Below stands what ORDER BY costs by what
# std's sort of the same numbers costs, which should stay below 3.
# Build the program first, by `rt run` in crates/query_bench or by `rt ci` at the top. All comes from one run, so the
# ratios hold on a machine that does other things as well; no test rests on the numbers.
set -euo pipefail
cd "$(dirname "$0")/.."
program=crates/query_bench/out/query_bench
sizes=(1000 10000 100000)
times=20000
tries=10

if [ ! -x "$program" ]; then
    echo "no $program: run 'rt run' in crates/query_bench first" >&2
    exit 1
fi

# The statements, as `name statement`.
statements() {
    cat <<END
first MATCH (a:First) UNWIND range(1, $times) AS i RETURN count(*)
bound MATCH (a:First) UNWIND range(1, $times) AS i MATCH (a)-[:NEXT]->(b) RETURN count(*)
hops MATCH (a:Node)-[]->(b)-[]->(c) RETURN count(*)
scan MATCH (a:First) RETURN count(*)
keys MATCH (a:Node) WITH a.k AS k RETURN count(k)
distinct MATCH (a:Node) WITH DISTINCT a.k AS k RETURN count(k)
groups MATCH (a:Node) WITH a.k AS k, count(*) AS c RETURN count(k)
few MATCH (a:Node) WITH a.g AS g, count(*) AS c RETURN count(g)
order MATCH (a:Node) WITH a.k AS k ORDER BY k RETURN count(k)
END
}

# The least time of each statement over some tries, as lines `size name microseconds`.
times_at() {
    local size="$1"
    statements | sed 's/^[a-z]* //' >"$room/in"
    statements | sed 's/ .*//' >"$room/names"
    for ((i = 0; i < tries; i++)); do
        "$program" time "$size" <"$room/in" >"$room/out"
        if grep -qv '^[0-9]* OK 1$' "$room/out"; then
            echo "not each statement was answered with one row" >&2
            exit 1
        fi
        paste -d ' ' "$room/names" "$room/out"
        echo "sort $("$program" sort "$size")"
    done | awk -v size="$size" '
        !($1 in least) || $2 < least[$1] { least[$1] = $2 }
        END { for (name in least) print size, name, least[name] }'
}

room="$(mktemp -d)"
trap 'rm -rf "$room"' EXIT

for size in "${sizes[@]}"; do times_at "$size"; done | awk -v times="$times" '
    function cost(name, size) {
        if (name == "bound") return 1000 * (time["bound", size] - time["first", size]) / times
        if (name == "hops") return 1000 * time["hops", size] / (6 * size)
        if (name == "scan") return 1000 * time["scan", size] / size
        return 1000 * (time[name, size] - time["keys", size]) / size
    }
    { time[$2, $1] = $3 }
    END {
        printf "%-12s %10s %10s %10s  growth\n", "cost", "1000", "10000", "100000"
        count = split("bound hops scan distinct groups few order", order, " ")
        for (i = 1; i <= count; i++) {
            name = order[i]
            first = cost(name, 1000); last = cost(name, 100000)
            growth = (first > 0 ? sprintf("%.2f", last / first) : "-")
            printf "%-12s %10.0f %10.0f %10.0f  %s\n", name, first, cost(name, 10000), last, growth
        }
        printf "\n%-12s", "order / sort"
        split("1000 10000 100000", sizes, " ")
        for (i = 1; i <= 3; i++) {
            size = sizes[i]
            sort = 1000 * time["sort", size] / size
            printf " %10s", (sort > 0 ? sprintf("%.2f", cost("order", size) / sort) : "-")
        }
        printf "\n"
    }'
