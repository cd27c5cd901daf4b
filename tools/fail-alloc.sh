#!/usr/bin/env bash
# Runs the program on the lines of an event list or a script, once for each N of a range, with the Nth allocation failing,
# and judges what it answered. It is no part of the gate.
#
#   tools/fail-alloc.sh [script] [LIST] [FIRST [LAST]]
#
# Without LIST it takes examples/network.events, or examples/accounts.script. Without LAST it goes on to the last allocation
# that a run without a fault makes, and without FIRST it begins at the first. Each run prints a line. As it must be:
#
#   as without a fault          the allocation wasn't needed
#   line L found no memory      of events: its reply is `refused 11 no memory`, and all others are those of a run without
#                               line L. Of a script: its reply is `ERR 16 no memory`, and all others are those of a run in
#                               which something else stands in its place, see `stand_ins`
#   status 5 behind R replies   the run ended, and these are the first of the replies
#
# All else is WRONG: a reply that is lost, changed or given twice. The last line counts them, and the script's status is
# 1 where there is one.
#
# Build the program first, by bin/aeong or by `rt ci` at the top. fail-alloc.c stands between it and the C library's
# malloc; a C compiler is needed for it, $CC or cc.
set -uo pipefail

top="$(cd "$(dirname "${BASH_SOURCE[0]}")/.." && pwd)"
word=events lines="$top/examples/network.events"
if [ "${1:-}" = script ]; then
    word=script lines="$top/examples/accounts.script"
    shift
fi
if [ -f "${1:-}" ]; then
    lines="$1"
    shift
fi
first="${1:-1}" last="${2:-}"
for number in "$first" "${last:-1}"; do
    if ! [[ "$number" =~ ^[1-9][0-9]*$ ]]; then
        echo "usage: tools/fail-alloc.sh [script] [LIST] [FIRST [LAST]]" >&2
        exit 2
    fi
done
program="$top/crates/aeong/out/aeong"
if [ ! -x "$program" ]; then
    echo "no $program: run 'bin/aeong events </dev/null' first" >&2
    exit 2
fi
room="$(mktemp -d)"
trap 'rm -rf "$room"' EXIT
"${CC:-cc}" -O1 -shared -fPIC -o "$room/fail-alloc.so" "$top/tools/fail-alloc.c" || exit 2

# The replies, one line for each: the rows of a script's reply stand in front of its end, parted by tabs.
joined() {
    if [ "$word" = events ]; then cat; else awk '{ printf "%s%s", $0, (/^[a-z][a-z0-9_]*: \[/ ? "\t" : "\n") }'; fi
}

# Runs the program on the list $1 with these settings of fail-alloc.c, and keeps its replies in $2.
try() {
    local list="$1" replies="$2" status
    shift 2
    env "$@" LD_PRELOAD="$room/fail-alloc.so" "$program" "$word" <"$list" >"$replies.out" 2>"$replies.log"
    status=$?
    joined <"$replies.out" >"$replies"
    return $status
}

# What may have been done by line $1 of a script, whose reply is $2, until it found no memory. One number stands for each,
# and the lines are put into the file $3; it fails where there is no such number.
#
#   0        nothing; or a ROLLBACK, where the reply says that a transaction was aborted
#   1        a transaction that took a start, and was aborted
#   2        the same with all that the statement does
#   3 ..     the same with fewer ids: so many vertices and edges of other statements
#
# Starts and ids that were taken aren't given again, so these are told apart by the numbers in later replies.
stand_in() {
    local line="$1" reply="$2" which="$3" session statement vertices edges i
    session="$(sed -n "${line}s/:.*//p" "$room/list")"
    statement="$(sed -n "${line}p" "$room/list")"
    local outside=1
    if [[ "$reply" == *' (aborted)' ]]; then outside=0; fi
    if [ "$which" -eq 0 ]; then
        if [ $outside -eq 0 ]; then echo "$session: ROLLBACK"; fi
        return 0
    fi
    if [ $outside -eq 1 ]; then echo "$session: BEGIN"; fi
    if [ "$which" -eq 2 ]; then echo "$statement"; fi
    if [ "$which" -ge 3 ]; then
        vertices=$(((which - 3) / 4)) edges=$(((which - 3) % 4))
        for ((i = 0; i < edges; i++)); do
            if [ "$i" -lt "$vertices" ]; then
                echo "$session: CREATE (a)-[:T]->(a)"
            else
                echo "$session: MATCH (n) WITH n LIMIT 1 CREATE (n)-[:T]->(n)"
            fi
        done
        for ((; i < vertices; i++)); do echo "$session: CREATE ()"; done
    fi
    echo "$session: ROLLBACK"
}

# The replies without that of line $1, where $2 stands in its place by $3 in a run without a fault.
replaced() {
    local line="$1" reply="$2" which="$3" name="$room/instead.$1.$3.${2//[^a-z]/}" count
    if [ ! -e "$name" ]; then
        stand_in "$line" "$reply" "$which" >"$room/lines"
        count="$(wc -l <"$room/lines")"
        { head -n "$((line - 1))" "$room/list"; cat "$room/lines"; tail -n "+$((line + 1))" "$room/list"; } >"$room/instead"
        "$program" script <"$room/instead" | joined >"$room/told" || return 1
        { head -n "$((line - 1))" "$room/told"; tail -n "+$((line + count))" "$room/told"; } >"$name"
    fi
    cat "$name"
}

# Replies without what a sweep counts: one that found no memory may have moved a part.
uncounted() {
    if [[ "$1" == *.sweep ]]; then sed 's/moved [0-9]*/moved/; s/OK chain .*/OK chain/'; else cat; fi
}

# Whether the replies without line $1 are those of a run in which something stands in its place.
stands_for() {
    local line="$1" reply="$2" statement which
    statement="$(sed -n "${line}p" "$room/list")"
    sed "${line}d" "$room/replies" | uncounted "$statement" >"$room/others"
    for ((which = 0; which < 23; which++)); do
        if replaced "$line" "$reply" "$which" | uncounted "$statement" | cmp -s - "$room/others"; then return 0; fi
    done
    return 1
}

# The replies of a run of events without line $1 and without a fault.
without() {
    if [ ! -e "$room/without.$1" ]; then
        sed "$1d" "$room/list" >"$room/list.$1"
        "$program" events <"$room/list.$1" >"$room/without.$1" || return 1
    fi
}

# Whether the reply to line $1 is the one that says so, and the others are as they must be.
is_left_out() {
    local line="$1" reply
    reply="$(sed -n "${line}p" "$room/replies")"
    if [ "$word" = script ]; then
        [ "${reply%%:*}" = "$(sed -n "${line}s/:.*//p" "$room/list")" ] && stands_for "$line" "$reply"
    else
        without "$line" && cmp -s "$room/without.$line" <(sed "${line}d" "$room/replies") &&
            [ "${reply%% *}" = "$(sed -n "${line}s/ .*//p" "$room/list")" ]
    fi
}

# What the run's replies and status are, or WRONG.
judge() {
    local status="$1" count line wanting='refused 11 no memory$'
    if [ "$word" = script ]; then wanting='ERR 16 no memory\( (aborted)\)*$'; fi
    count="$(wc -l <"$room/replies")"
    if [ "$status" -eq 0 ] && cmp -s "$room/whole" "$room/replies"; then
        echo "as without a fault"
    elif [ "$status" -eq 5 ] && cmp -s <(head -c "$(wc -c <"$room/replies")" "$room/whole") "$room/replies"; then
        echo "status 5 behind $count replies"
    elif [ "$status" -eq 0 ] && [ "$(grep -c "$wanting" "$room/replies")" -eq 1 ]; then
        line="$(grep -n "$wanting" "$room/replies" | cut -d: -f1)"
        if is_left_out "$line"; then
            echo "line $line found no memory"
        else
            echo "WRONG: line $line found no memory, and other replies changed"
        fi
    else
        echo "WRONG: status $status, $count replies"
    fi
}

grep -v '^#' "$lines" | grep -v '^[[:space:]]*$' >"$room/list"
if ! try "$room/list" "$room/whole" COUNT_ALLOC=1; then
    cat "$room/whole.log" >&2
    exit 2
fi
made="$(tail -n 1 "$room/whole.log")"
echo "without a fault: $(wc -l <"$room/list") lines, $(wc -l <"$room/whole") replies, $made allocations"

runs=0 wrong=0
for ((n = first; n <= ${last:-$made}; n++)); do
    try "$room/list" "$room/replies" FAIL_ALLOC="$n"
    verdict="$(judge $?)"
    runs=$((runs + 1))
    case "$verdict" in
        WRONG*) wrong=$((wrong + 1)) ;;
    esac
    printf '%6d  %s\n' "$n" "$verdict"
done
echo "$runs runs, $wrong wrong"
[ "$wrong" -eq 0 ]
