#!/usr/bin/env bash
# Prints what queries of earlier instants cost, as ratios of one run.
#
#   near       one vertex as of an instant among the ten newest versions, by how many versions it has
#   far        the same, as of an instant anywhere among its versions
#   swept-near, swept-far    the same behind a whole sweep, when the versions stand in the history
#   hops       a pattern of two hops over 10,000 vertices: now, as of the newest instant, as of one before a change of each
#              vertex, and the same behind a sweep
#   span       TT BETWEEN over so many instants of a vertex with 1,000 versions, the newest instants
#   swept-span the same behind a whole sweep
#
# Each number is a cost by that of its first column. `near` and both behind a sweep should be about 1; `far` walks the chain
# from the newest version on. `hops` should stay below 2. `swept-span` grows as the number of instants; `span` reads each
# version through the newer ones of the chain besides.
# Build the program first, by bin/aeong or by `rt ci` at the top. All comes from one run; the numbers decide nothing.
set -euo pipefail
cd "$(dirname "$0")/.."
program=crates/aeong/out/aeong
tries=3

word=script
end_line="z: COMMIT"
end_reply="z: ERR 12 no transaction"
looked_at='^z: \|: ERR '
source bench/timing.sh

# A vertex with so many versions: the first at 2, and one more at each even instant.
versions_of() {
    echo "a: CREATE (n:P {k: 0})"
    awk -v count="$1" 'BEGIN { for (i = 1; i < count; i++) print "a: MATCH (n:P) SET n.k = n.k + 1" }'
}

# So many queries of that vertex, as of instants that are spread over those from one on.
snapshots() {
    awk -v first="$1" -v last="$2" -v count="$3" 'BEGIN {
        for (i = 0; i < count; i++)
            printf "a: MATCH (n:P) RETURN n.k TT SNAPSHOT %d\n", first + i * 7919 % (last - first + 1)
    }'
}

# What so many of these queries cost with so many versions; behind a sweep where one is asked.
cost_of() {
    local versions="$1" where="$2" sweep="$3" last=$((2 * $1))
    local first=2
    if [ "$where" = near ]; then first=$((last - 19)); fi
    { versions_of "$versions"; $sweep; } >"$room/before"
    snapshots "$first" "$last" 200 >"$room/measured"
    time_of "$room/before" "$room/measured"
}

sweep() {
    echo "a: .sweep"
}

sizes=(100 10000 100000)
heading versions "${sizes[@]}"
for kind in "near :" "far :" "near sweep" "far sweep"; do
    read -r where swept <<<"$kind"
    costs=()
    for size in "${sizes[@]}"; do costs+=("$(cost_of "$size" "$where" "$swept")"); done
    if [ "$swept" = sweep ]; then where="swept $where"; fi
    row "${where/ /-}" "${costs[@]}"
done

# Ten thousand vertices with two hops from each fourth one and each behind it, and then a change of each vertex.
chains() {
    echo "a: UNWIND range(1, 2500) AS i CREATE (:Node)-[:NEXT]->(:Node)-[:NEXT]->(:Node)-[:NEXT]->(:Node)"
    echo "a: MATCH (n:Node) SET n.k = 1"
}

# So many times the two hops, as of an instant where one is given.
two_hops() {
    for ((i = 0; i < 5; i++)); do echo "a: MATCH (a:Node)-[:NEXT]->(b)-[:NEXT]->(c) RETURN count(*) $1"; done
}

heading hops now newest older swept
costs=()
for clause in "" "TT SNAPSHOT 4" "TT SNAPSHOT 3"; do
    chains >"$room/before"
    two_hops "$clause" >"$room/measured"
    costs+=("$(time_of "$room/before" "$room/measured")")
done
{ chains; sweep; } >"$room/before"
costs+=("$(time_of "$room/before" "$room/measured")")
row "two-hops" "${costs[@]}"

# Ten times TT BETWEEN over the last so many of two thousand instants.
spans() {
    for ((i = 0; i < 10; i++)); do echo "a: MATCH (n:P) RETURN n.k TT BETWEEN $((2001 - $1)) AND 2000"; done
}

lengths=(10 100 1000)
heading instants "${lengths[@]}"
for swept in : sweep; do
    costs=()
    for length in "${lengths[@]}"; do
        { versions_of 1000; $swept; } >"$room/before"
        spans "$length" >"$room/measured"
        costs+=("$(time_of "$room/before" "$room/measured")")
    done
    if [ "$swept" = sweep ]; then row swept-span "${costs[@]}"; else row span "${costs[@]}"; fi
done
