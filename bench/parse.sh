#!/usr/bin/env bash
# Prints what reading and checking a statement costs, and printing the tree of one that passes:
#
#   short     statements of the load: how many a second
#   long      texts of about 65,000 bytes: how many a second, and what a byte costs by what a byte of the short ones
#             costs, all three together; each of these ratios should stay below 2
#   hostile   texts that are faults: the fault, and how long one takes
#
# Build the program first, by `rt run` in crates/query_bench or by `rt ci` at the top. The program's start counts too.
# All comes from one run, so the ratios hold on a machine that does other things as well; no test rests on the numbers.
set -euo pipefail
cd "$(dirname "$0")/.."
program=crates/query_bench/out/query_bench
short_count=60000
long_count=60
hostile_count=20
tries=3

if [ ! -x "$program" ]; then
    echo "no $program: run 'rt run' in crates/query_bench first" >&2
    exit 1
fi
room="$(mktemp -d)"
trap 'rm -rf "$room"' EXIT

# So many copies of a text, one behind the other.
copies() {
    awk -v text="$1" -v count="$2" 'BEGIN { for (i = 0; i < count; i++) printf "%s", text }'
}

# Answers the input once, and stops where not each of its lines has this answer. `ok` is any answer with a tree.
check() {
    local found
    "$program" parse <"$room/in" >"$room/out"
    found="$(sed 's/^ok .*/ok/' "$room/out" | sort -u)"
    if [ "$found" != "$1" ] || [ "$(wc -l <"$room/out")" -ne "$(wc -l <"$room/in")" ]; then
        echo "not each statement was answered '$1'" >&2
        exit 1
    fi
}

# The least time of some tries, in microseconds.
least_time() {
    local least="" start time
    for ((i = 0; i < tries; i++)); do
        start=${EPOCHREALTIME/[.,]/}
        "$program" parse <"$room/in" >/dev/null
        time=$((${EPOCHREALTIME/[.,]/} - start))
        if [ -z "$least" ] || ((time < least)); then least=$time; fi
    done
    echo "$least"
}

short() {
    awk -v shape="$1" -v count="$short_count" 'BEGIN {
        for (i = 0; i < count; i++) {
            a = i * 7919 % 1000; b = i * 104729 % 1000
            if (shape == "create") printf "CREATE (n:Person {n:%d, k:0})\n", a
            else if (shape == "connect")
                printf "MATCH (a:Person {n:%d}), (b:Person {n:%d}) CREATE (a)-[:KNOWS {w:%d}]->(b)\n", a, b, i % 100
            else printf "MATCH (n:Person {n:%d}) SET n.k = n.k + 1\n", a
        }
    }' >"$room/in"
}

# One text of about 65,000 bytes, without its line end.
long() {
    case "$1" in
    clauses) copies "MATCH (a) " 6499; printf 'RETURN a' ;;
    list) printf 'RETURN [1'; copies ", 1" 21663; printf ']' ;;
    nesting)
        local group
        group="$(copies "(" 63)1$(copies ")" 63)"
        printf 'RETURN [%s' "$group"
        copies ",$group" 506
        printf ']'
        ;;
    name) printf 'UNWIND [1] AS '; copies "n" 64977; printf ' RETURN 1' ;;
    esac
}

# A text that is a fault, without its line end.
hostile() {
    case "$1" in
    parentheses) printf 'RETURN '; copies "(" 65529 ;;
    bare_parentheses) copies "(" 65536 ;;
    nots) printf 'RETURN '; copies "NOT " 16382 ;;
    nots_of_four_lines) printf 'RETURN '; copies "NOT " 65536 ;;
    open_text) printf "RETURN '"; copies "x" 65528 ;;
    open_comment) printf 'RETURN /*'; copies "*" 65527 ;;
    esac
}

wanted() {
    case "$1" in
    parentheses) echo "ERR 4 shape too deep at 71" ;;
    bare_parentheses) echo "ERR 2 syntax at 0" ;;
    nots) echo "ERR 4 shape too deep at 263" ;;
    nots_of_four_lines) echo "ERR 1 line too long" ;;
    open_text | open_comment) echo "ERR 2 syntax at 7" ;;
    esac
}

printf '%-20s %16s %16s\n' "short" "bytes" "statements/s"
all_time=0
all_bytes=0
for shape in create connect set; do
    short "$shape"
    check ok
    bytes=$(wc -c <"$room/in")
    time=$(least_time)
    all_time=$((all_time + time))
    all_bytes=$((all_bytes + bytes))
    awk -v name="$shape" -v bytes="$bytes" -v count="$short_count" -v time="$time" \
        'BEGIN { printf "%-20s %16.1f %16.0f\n", name, bytes / count, count * 1000000 / time }'
done

printf '\n%-20s %16s %16s  by a short byte\n' "long" "bytes" "statements/s"
for shape in clauses list nesting name; do
    for ((line = 0; line < long_count; line++)); do
        long "$shape"
        echo
    done >"$room/in"
    check ok
    bytes=$(wc -c <"$room/in")
    time=$(least_time)
    awk -v name="$shape" -v bytes="$bytes" -v count="$long_count" -v time="$time" -v all_bytes="$all_bytes" \
        -v all_time="$all_time" 'BEGIN {
            ratio = (time / bytes) / (all_time / all_bytes)
            printf "%-20s %16.0f %16.0f  %.2f\n", name, bytes / count - 1, count * 1000000 / time, ratio
        }'
done

printf '\n%-20s %16s %16s  fault\n' "hostile" "bytes" "microseconds"
for shape in parentheses bare_parentheses nots nots_of_four_lines open_text open_comment; do
    for ((line = 0; line < hostile_count; line++)); do
        hostile "$shape"
        echo
    done >"$room/in"
    check "$(wanted "$shape")"
    bytes=$(wc -c <"$room/in")
    time=$(least_time)
    awk -v name="$shape" -v bytes="$bytes" -v count="$hostile_count" -v time="$time" -v fault="$(wanted "$shape")" \
        'BEGIN { printf "%-20s %16.0f %16.0f  %s\n", name, bytes / count - 1, time / count, fault }'
done
