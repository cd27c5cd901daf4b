#!/usr/bin/env bash
# Prints what a collector costs and what it leaves. Each row is one kind of event; its columns are sizes, and each number
# is the cost by that of the first column, so 1.00 means that the size doesn't matter. All comes from one run.
#
#   reads       a read at an instant of a vertex with so many versions, all of them in its history
#   chain       a lift and an installation of a vertex with 1,000 expired deltas, where so many stay in its chain
#   others      the same, where so many other vertices are there
#   sweep       a lift of each of so many vertices, of which ten have expired deltas: for each vertex
#   bytes       resident memory for each version before and after all of them were moved, and the second by the first
#
# Build the program first, by bin/aeong or by `rt ci` at the top. The numbers decide nothing: no test rests on them.
set -euo pipefail
cd "$(dirname "$0")/.."
program=crates/aeong/out/aeong
tries=3

source bench/timing.sh

# Moves all that has expired of a vertex.
moved() {
    printf '8 lift %s\n8 install %s\n' "$1" "$1"
}

# Reads of v0 at instants all over its versions, the number n of which was committed at 2 * n + 2.
reads() {
    awk -v versions="$1" -v count="$2" 'BEGIN {
        print "1 begin"
        for (i = 0; i < count; i++) printf "1 read v0 at %d\n", 2 * (i * 7919 % versions) + 2
        print "1 commit"
    }'
}

heading reads 1000 10000 100000
costs=()
for size in 1000 10000 100000; do
    { vertices 1; versions v0 "$size"; moved v0; } >"$room/before"
    reads "$size" 100000 >"$room/measured"
    costs+=("$(time_of "$room/before" "$room/measured")")
done
row read-at "${costs[@]}"

# A reader that begins behind 1,000 versions holds the mark, and so many more come; then what expired is moved.
heading chain 100 10000 100000
costs=()
for size in 100 10000 100000; do
    { vertices 1; versions v0 1000; echo "2 begin"; versions v0 "$size"; } >"$room/before"
    moved v0 >"$room/measured"
    costs+=("$(time_of "$room/before" "$room/measured")")
done
row lift-install "${costs[@]}"

heading others 100 10000 100000
costs=()
for size in 100 10000 100000; do
    { vertices "$size"; versions v0 1000; } >"$room/before"
    moved v0 >"$room/measured"
    costs+=("$(time_of "$room/before" "$room/measured")")
done
row lift-install "${costs[@]}"

# A whole sweep, and a second one: behind the first only ten vertices have something to move.
sweep() {
    awk -v count="$1" 'BEGIN { for (i = 0; i < count; i++) printf "8 lift v%d\n8 install v%d\n", i, i }'
}

heading sweep 1000 10000 100000
costs=()
for size in 1000 10000 100000; do
    {
        vertices "$size"
        sweep "$size"
        for ((i = 0; i < 10; i++)); do versions "v$i" 1; done
    } >"$room/before"
    sweep "$size" >"$room/measured"
    costs+=("$(($(time_of "$room/before" "$room/measured") * 1000 / size))")
done
row vertex "${costs[@]}"

# The resident bytes once the lines of a file were answered.
resident_after() {
    local pid
    mkfifo "$room/lines" "$room/answers" "$room/ends"
    grep --line-buffered '^9 \|refused' <"$room/answers" >"$room/ends" &
    "$program" events <"$room/lines" >"$room/answers" &
    pid=$!
    exec 3>"$room/lines" 4<"$room/ends"
    send "$1"
    awk '/^VmRSS:/ { print $2 * 1024 }' "/proc/$pid/status"
    exec 3>&- 4<&-
    wait
    rm "$room/lines" "$room/answers" "$room/ends"
}

heading bytes before after ratio
vertices 1 >"$room/none"
{ vertices 1; versions v0 300000; } >"$room/chained"
{ vertices 1; versions v0 300000; moved v0; } >"$room/moved"
none="$(resident_after "$room/none")"
chained="$(resident_after "$room/chained")"
moved="$(resident_after "$room/moved")"
awk -v none="$none" -v chained="$chained" -v moved="$moved" 'BEGIN {
    before = (chained - none) / 300000
    after = (moved - none) / 300000
    printf "%-18s %11.0f %11.0f %11.2f\n", "version", before, after, after / before
}'
