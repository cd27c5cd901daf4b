#!/usr/bin/env bash
# Prints what the events of the store cost as it grows. Each row is one kind of event; its columns are sizes, and each
# number is the cost by that of the first column, so 1.00 means that the size doesn't matter. All comes from one run.
#
#   objects     so many vertices are there: a transaction that sets one property of one, an aborted one, a read
#   others      another object has so many versions: the same
#   own         the object itself has so many versions: the same, of its newest form
#   undone      a read at an instant, where so many deltas are undone: for each delta
#   behind      a read at an instant with 100 deltas to undo, where so many versions are there in all
#   writes      a commit and an abort of a transaction that has written so many objects: for each of these
#   dead        a search that passes over so many dead ids: for each of these
#   edges       an edge from a vertex that has so many, behind the transaction's first write
#
# Build the program first, by bin/aeong or by `rt ci` at the top. The numbers decide nothing: no test rests on them.
set -euo pipefail
cd "$(dirname "$0")/.."
program=crates/aeong/out/aeong
tries=3

source bench/timing.sh

# So many times one event on one of the first vertices.
events() {
    awk -v event="$1" -v among="$2" -v count="$3" 'BEGIN {
        if (event == "read") print "1 begin"
        for (i = 0; i < count; i++) {
            x = i * 7919 % among
            if (event == "read") printf "1 read v%d own\n", x
            else printf "1 begin\n1 set v%d a %d\n1 %s\n", x, i, event
        }
        if (event == "read") print "1 commit"
    }'
}

heading objects 1000 10000 100000 1000000
for event in commit abort read; do
    costs=()
    for size in 1000 10000 100000 1000000; do
        vertices "$size" >"$room/before"
        events "$event" "$size" 100000 >"$room/measured"
        costs+=("$(time_of "$room/before" "$room/measured")")
    done
    row "$event" "${costs[@]}"
done

for shape in others own; do
    heading "$shape" 10 1000 100000
    for event in commit abort read; do
        costs=()
        for size in 10 1000 100000; do
            { vertices 2; versions "$([ "$shape" = own ] && echo v0 || echo v1)" "$size"; } >"$room/before"
            events "$event" 1 100000 >"$room/measured"
            costs+=("$(time_of "$room/before" "$room/measured")")
        done
        row "$event" "${costs[@]}"
    done
done

# Reads at the instant that has so many of the versions of v0 above it. The first commit took 2, and each later one 2
# more, so the version number n was committed at 2 * n + 2.
reads_at() {
    awk -v versions="$1" -v undone="$2" -v count="$3" 'BEGIN {
        print "1 begin"
        for (i = 0; i < count; i++) printf "1 read v0 at %d\n", 2 * (versions - undone) + 2
        print "1 commit"
    }'
}

heading undone 100 1000 10000
costs=()
{ vertices 1; versions v0 100000; } >"$room/before"
for undone in 100 1000 10000; do
    reads_at 100000 "$undone" "$((10000000 / undone))" >"$room/measured"
    costs+=("$(time_of "$room/before" "$room/measured")")
done
row read-at "${costs[@]}"

heading behind 1000 10000 100000
costs=()
for size in 1000 10000 100000; do
    { vertices 1; versions v0 "$size"; } >"$room/before"
    reads_at "$size" 100 100000 >"$room/measured"
    costs+=("$(time_of "$room/before" "$room/measured")")
done
row read-at "${costs[@]}"

# Transactions that write so many vertices each, 100,000 in all.
transactions() {
    awk -v each="$1" -v end="$2" 'BEGIN {
        for (t = 0; t < 100000 / each; t++) {
            print "1 begin"
            for (i = 0; i < each; i++) printf "1 set v%d k %d\n", i, t
            print "1 " end
        }
    }'
}

heading writes 100 1000 10000
vertices 10000 >"$room/before"
for end in commit abort; do
    costs=()
    for each in 100 1000 10000; do
        transactions "$each" "$end" >"$room/measured"
        costs+=("$(time_of "$room/before" "$room/measured")")
    done
    row "$end" "${costs[@]}"
done

# Searches over the dead vertices between the first and the last one.
heading dead 1000 10000 100000
costs=()
for size in 1000 10000 100000; do
    {
        vertices "$((size + 2))"
        awk -v size="$size" 'BEGIN {
            print "1 begin"
            for (i = 1; i <= size; i++) printf "1 delete v%d\n", i
            print "1 commit"
        }'
    } >"$room/before"
    awk -v count="$((10000000 / size))" 'BEGIN {
        print "1 begin"
        for (i = 0; i < count; i++) print "1 next vertex after 0 own"
        print "1 commit"
    }' >"$room/measured"
    costs+=("$(time_of "$room/before" "$room/measured")")
done
row next "${costs[@]}"

# Edges from a vertex that has many, in one transaction whose first write was one of them.
edges() {
    awk -v count="$1" 'BEGIN { for (i = 0; i < count; i++) print "1 edge v0 T v1" }'
}

heading edges 10 1000 100000 1000000
costs=()
for size in 10 1000 100000 1000000; do
    { vertices 2; echo "1 begin"; edges "$size"; echo "1 commit"; echo "1 begin"; edges 1; } >"$room/before"
    { edges 50000; echo "1 commit"; } >"$room/measured"
    costs+=("$(time_of "$room/before" "$room/measured")")
done
row edge "${costs[@]}"
