#!/usr/bin/env bash
# Prints how much resident memory the program takes for each object or version, from the growth between two sizes of one
# run: from none to 100,000, and from there to 1,000,000.
#
#   vertices   vertices with two integer properties, a thousand made in each transaction
#   versions   versions of one vertex with two integer properties, each by a set of one of them and a commit
#
# Build the program first, by bin/aeong or by `rt ci` at the top. The numbers decide nothing: no test rests on them.
set -euo pipefail
cd "$(dirname "$0")/.."
program=crates/aeong/out/aeong
shapes=(vertices versions)
sizes=(0 100000 1000000)

if [ ! -x "$program" ]; then
    echo "no $program: run 'bin/aeong events </dev/null' first" >&2
    exit 1
fi
room="$(mktemp -d)"
trap 'rm -rf "$room"' EXIT

# The lines that bring a shape from one size to another.
generate() {
    awk -v shape="$1" -v from="$2" -v to="$3" 'BEGIN {
        if (shape == "versions") {
            if (from == 0) print "1 begin\n1 vertex\n1 set v0 a 0\n1 set v0 b 0\n1 commit"
            for (i = from; i < to; i++) printf "1 begin\n1 set v0 a %d\n1 commit\n", i + 1
        } else {
            for (i = from; i < to; i++) {
                if (i % 1000 == 0) print "1 begin"
                printf "1 vertex\n1 set v%d a %d\n1 set v%d b %d\n", i, i, i, i
                if (i % 1000 == 999) print "1 commit"
            }
        }
    }'
}

# The program answers this line last: caller 9 has no transaction.
wait_for_answers() {
    echo "9 commit" >&3
    until [ "$(grep -c '^9 ' "$room/replies")" -eq "$1" ]; do sleep 0.05; done
    if grep -v '^9 ' "$room/replies" | grep -q refused; then
        echo "a line was refused" >&2
        exit 1
    fi
}

resident() {
    awk '/^VmRSS:/ { print $2 * 1024 }' "/proc/$1/status"
}

printf '%-14s %14s %14s\n' "bytes for each" "${sizes[1]}" "${sizes[2]}"
for shape in "${shapes[@]}"; do
    mkfifo "$room/lines" "$room/answers"
    : >"$room/replies"
    grep --line-buffered '^9 \|refused' <"$room/answers" >>"$room/replies" &
    "$program" events <"$room/lines" >"$room/answers" &
    process=$!
    exec 3>"$room/lines"
    wait_for_answers 1
    taken=("$(resident "$process")")
    for ((i = 1; i < ${#sizes[@]}; i++)); do
        generate "$shape" "${sizes[i - 1]}" "${sizes[i]}" >&3
        wait_for_answers "$((i + 1))"
        taken+=("$(resident "$process")")
    done
    exec 3>&-
    wait
    rm "$room/lines" "$room/answers" "$room/replies"
    echo "$shape ${sizes[*]} ${taken[*]}" | awk '{
        printf "%-14s %14.0f %14.0f\n", $1, ($6 - $5) / ($3 - $2), ($7 - $6) / ($4 - $3)
    }'
done
