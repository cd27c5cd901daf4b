#!/usr/bin/env bash
# Prints how many lines a second the program answers, for inputs of 10,000, 100,000 and 1,000,000 lines of three shapes,
# and how much more a line costs in the longest input than in the shortest. Where that growth is about 1, a line costs
# the same whatever the store holds. The program's start counts too, so the shortest input looks a little slow.
#
#   vertices       one transaction makes them all
#   sets           one transaction sets one property of one vertex again and again
#   transactions   each makes a vertex, sets a property of it and commits
#
# Build the program first, by bin/aeong or by `rt ci` at the top. The numbers decide nothing: no test rests on them.
set -euo pipefail
cd "$(dirname "$0")/.."
program=crates/aeong/out/aeong
shapes=(vertices sets transactions)
sizes=(10000 100000 1000000)
tries=3

if [ ! -x "$program" ]; then
    echo "no $program: run 'bin/aeong events </dev/null' first" >&2
    exit 1
fi
room="$(mktemp -d)"
trap 'rm -rf "$room"' EXIT

# The lines of a shape, as many as asked for; the count is a multiple of 4.
generate() {
    awk -v shape="$1" -v size="$2" 'BEGIN {
        if (shape == "vertices") {
            print "1 begin"
            for (i = 0; i < size - 2; i++) print "1 vertex"
            print "1 commit"
        } else if (shape == "sets") {
            print "1 begin"
            print "1 vertex"
            for (i = 0; i < size - 3; i++) printf "1 set v0 k %d\n", i
            print "1 commit"
        } else {
            for (i = 0; i < size / 4; i++) printf "1 begin\n1 vertex\n1 set v%d k %d\n1 commit\n", i, i
        }
    }'
}

# Stops where the program does not answer each line, or refuses one.
check() {
    "$program" events <"$room/in" >"$room/out"
    if [ "$(wc -l <"$room/out")" -ne "$1" ] || grep -q ' refused ' "$room/out"; then
        echo "not each of the $1 lines was answered without a refusal" >&2
        exit 1
    fi
}

# The least time of some tries, in microseconds.
least_time() {
    local least="" start time
    for ((i = 0; i < tries; i++)); do
        start=${EPOCHREALTIME/[.,]/}
        "$program" events <"$room/in" >/dev/null
        time=$((${EPOCHREALTIME/[.,]/} - start))
        if [ -z "$least" ] || ((time < least)); then least=$time; fi
    done
    echo "$least"
}

printf '%-14s %12s %12s %12s  growth\n' "lines/second" "${sizes[@]}"
for shape in "${shapes[@]}"; do
    times=()
    for size in "${sizes[@]}"; do
        generate "$shape" "$size" >"$room/in"
        check "$size"
        times+=("$(least_time)")
    done
    echo "$shape ${sizes[*]} ${times[*]}" | awk '{
        for (i = 1; i <= 3; i++) { cost[i] = ($(i + 4) > 0 ? $(i + 4) : 1) / $(i + 1); rate[i] = 1000000 / cost[i] }
        printf "%-14s %12.0f %12.0f %12.0f  %.2f\n", $1, rate[1], rate[2], rate[3], cost[3] / cost[1]
    }'
done
