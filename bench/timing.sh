# What the measurements of the store share: the time that lines take, rows of ratios, and events that make vertices and
# versions. It is read by the scripts beside it, which name the program in `program` and the number of tries in `tries`, and
# what follows where the lines aren't events.

# The program's word; the line behind a measured part, with its reply; and which replies are looked at.
word="${word:-events}"
end_line="${end_line:-9 commit}"
end_reply="${end_reply:-9 refused 1 no transaction}"
looked_at="${looked_at:-^9 \|refused}"

if [ ! -x "$program" ]; then
    echo "no $program: run 'bin/aeong events </dev/null' first" >&2
    exit 1
fi
room="$(mktemp -d)"
trap 'rm -rf "$room"' EXIT

# Sends the lines of a file and waits until they are answered; the program answers the last line with an end.
send() {
    local answer
    { cat "$1"; echo "$end_line"; } >&3
    read -r answer <&4
    if [ "$answer" != "$end_reply" ]; then
        echo "unexpected: $answer" >&2
        exit 1
    fi
}

# The least time of some tries that the lines $2 take behind the lines $1, in microseconds.
time_of() {
    local least="" start time
    mkfifo "$room/lines" "$room/answers" "$room/ends"
    for ((i = 0; i < tries; i++)); do
        grep --line-buffered "$looked_at" <"$room/answers" >"$room/ends" &
        "$program" "$word" <"$room/lines" >"$room/answers" &
        exec 3>"$room/lines" 4<"$room/ends"
        send "$1"
        start=${EPOCHREALTIME/[.,]/}
        send "$2"
        time=$((${EPOCHREALTIME/[.,]/} - start))
        exec 3>&- 4<&-
        wait
        if [ -z "$least" ] || ((time < least)); then least=$time; fi
    done
    rm "$room/lines" "$room/answers" "$room/ends"
    echo "$least"
}

# Many vertices, ten thousand made in each transaction.
vertices() {
    awk -v count="$1" 'BEGIN {
        for (i = 0; i < count; i++) {
            if (i % 10000 == 0) print "1 begin"
            print "1 vertex"
            if (i % 10000 == 9999 || i == count - 1) print "1 commit"
        }
    }'
}

# Many versions of a vertex.
versions() {
    awk -v x="$1" -v count="$2" 'BEGIN { for (i = 0; i < count; i++) printf "1 begin\n1 set %s k %d\n1 commit\n", x, i }'
}

row() {
    local name="$1"
    shift
    echo "$name $*" | awk '{ printf "%-18s", $1; for (i = 2; i <= NF; i++) printf " %11.2f", $i / $2; printf "\n" }'
}

heading() {
    printf '\n%-18s' "$1"
    shift
    printf ' %11s' "$@"
    printf '\n'
}
