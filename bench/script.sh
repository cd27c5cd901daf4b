#!/usr/bin/env bash
# Prints how many statements of a script the program answers in a second, on graphs of 1,000, 10,000 and 100,000 vertices,
# and how much more one costs on the largest than on the smallest:
#
#   create     a vertex with two properties, in a transaction of its own
#   connect    two vertices are found by a property each, and an edge is made between them
#   update     a vertex is found by a property, and another property of it is set
#   label      the vertices of a label that none has are counted: a scan
#   id         a vertex is asked for by its id in WHERE
#   bound      a pattern from a vertex that the statement has at hand
#
# The growth of create, id and bound should be about 1; that of the others is as that of the graph. Below stand costs beside
# one another, each by that of its first column:
#
#   rows       so many rows in a reply, for each row
#   writes     in a transaction that has written so often
#   sessions   so many others have a transaction open
#   commits    so many commits were made before
#
# Build the program first, by bin/aeong or by `rt ci` at the top. All comes from one run; the numbers decide nothing.
set -euo pipefail
cd "$(dirname "$0")/.."
program=crates/aeong/out/aeong
tries=3
sizes=(1000 10000 100000)
aim=300000

word=script
end_line="z: COMMIT"
end_reply="z: ERR 12 no transaction"
looked_at='^z: \|: ERR '
source bench/timing.sh

# So many of one statement, on vertices that are spread over so many.
statements() {
    awk -v kind="$1" -v among="$2" -v count="$3" 'BEGIN {
        for (i = 0; i < count; i++) {
            a = i * 7919 % among
            b = (i * 104729 + 1) % among
            if (kind == "create") printf "a: CREATE (n:Person {n:%d, k:0})\n", among + i
            if (kind == "connect") printf "a: MATCH (a:Person {n:%d}), (b:Person {n:%d}) CREATE (a)-[:KNOWS {w:%d}]->(b)\n", a, b, i % 100
            if (kind == "update") printf "a: MATCH (n:Person {n:%d}) SET n.k = n.k + 1\n", a
            if (kind == "read") printf "a: MATCH (n:Person {n:%d}) RETURN n.k\n", a
            if (kind == "label") print "a: MATCH (n:Group) RETURN count(n)"
            if (kind == "id") printf "a: MATCH (n) WHERE id(n) = %d RETURN n.k\n", a
            if (kind == "bound") print "a: CREATE (a:Group)-[:HAS]->(b) WITH a MATCH (a)-[:HAS]->(b) SET b.k = 1"
        }
    }'
}

# So many vertices.
persons() {
    awk -v count="$1" 'BEGIN { for (i = 0; i < count; i++) printf "a: CREATE (n:Person {n:%d, k:0})\n", i }'
}

# How many statements of a kind are measured on a graph of this size.
count_of() {
    case "$1" in
        create) echo 20000 ;;
        id | bound) echo 5000 ;;
        *) echo $((400000 / $2 > 10 ? 400000 / $2 : 10)) ;;
    esac
}

printf '%-18s %11s %11s %11s  growth\n' "statements/second" "${sizes[@]}"
for kind in create connect update label id bound; do
    rates=()
    for size in "${sizes[@]}"; do
        count="$(count_of "$kind" "$size")"
        persons "$size" >"$room/before"
        statements "$kind" "$size" "$count" >"$room/measured"
        rates+=("$((count * 1000000 / $(time_of "$room/before" "$room/measured")))")
    done
    echo "$kind ${rates[*]}" | awk '{ printf "%-18s %11d %11d %11d  %.2f\n", $1, $2, $3, $4, $2 / $4 }'
    if [ "$kind" = create ]; then reached="${rates[0]}"; fi
done
echo "$reached $aim" | awk '{ printf "\ncreate: the aim is %d a second, and %d are reached: %.2f of it\n", $2, $1, $1 / $2 }'

heading rows 1000 10000
costs=()
for rows in 1000 10000; do
    persons 1 >"$room/before"
    awk -v rows="$rows" 'BEGIN { for (i = 0; i < 200000 / rows; i++) printf "a: UNWIND range(1, %d) AS i RETURN i\n", rows }' >"$room/measured"
    costs+=("$(time_of "$room/before" "$room/measured")")
done
row unwind "${costs[@]}"

# Costs behind what a function gives for each of some sizes; 1,000 statements of each kind on ten vertices.
beside() {
    local name="$1" before="$2" kind size
    shift 2
    heading "$name" "$@"
    for kind in create update read; do
        costs=()
        for size in "$@"; do
            { persons 10; "$before" "$size"; } >"$room/before"
            statements "$kind" 10 1000 >"$room/measured"
            costs+=("$(time_of "$room/before" "$room/measured")")
        done
        row "$kind" "${costs[@]}"
    done
}

# A transaction that has written so often.
written() {
    echo "a: BEGIN"
    committed "$1"
}

# So many open transactions.
opened() {
    awk -v count="$1" 'BEGIN { for (i = 0; i < count; i++) printf "s%d: BEGIN\n", i }'
}

# So many commits.
committed() {
    statements update 10 "$1"
}

beside writes written 0 1000
beside sessions opened 1 1000
beside commits committed 0 100000
