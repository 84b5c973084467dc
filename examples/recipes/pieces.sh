#!/usr/bin/env bash
# A long range in pieces, one process each, joined to the table of the whole.
#
#   pieces.sh SESSIONS FROM TO PIECES               prints the pieces: the first and the last session of each
#   pieces.sh SESSIONS FROM TO PIECES COMMAND ..    runs COMMAND FIRST LAST for all pieces at once, and prints
#                                                   their joined table
#
# COMMAND .. are the words of a run without its dates, for instance
#   pieces.sh sessions.csv 2023-01-03 2023-12-29 4 tohmeril run p.pl sessions.csv assets.csv bars.csv
#
# A row of a table depends on its own session and not on the range that is asked for, so the joined table is
# that of the whole range, to the byte. Each process reads and holds all bars: take as many pieces as there
# are cores, and no more than fit in memory. Where a piece fails, its line is on standard error, nothing is
# printed, and the status is that of the first piece that failed.
set -euo pipefail
if [ $# -lt 4 ]; then
    echo "usage: pieces.sh SESSIONS FROM TO PIECES [COMMAND ..]" >&2
    exit 2
fi
sessions=$1 from=$2 to=$3 count=$4
shift 4

# FROM and TO have to be sessions, as for a run
list=$(tr -d '\r"' < "$sessions" | LC_ALL=C awk -v from="$from" -v to="$to" -v count="$count" '
    NR == 1 { sub(/^\357\273\277/, "") }
    $1 == from { begins = 1 }
    $1 == to { ends = 1 }
    $1 >= from && $1 <= to { day[n++] = $1 }
    END {
        fault = !begins ? "range: NotSession " from : !ends ? "range: NotSession " to : n == 0 ? "range: Backwards" : ""
        if (!fault && count !~ /^[1-9][0-9]*$/) fault = "PIECES is a number from 1 on"
        if (fault) { print fault > "/dev/stderr"; exit 5 }
        for (i = 0; i < count; i++) {
            first = int(n * i / count)
            last = int(n * (i + 1) / count) - 1
            if (first <= last) print day[first], day[last]
        }
    }')
if [ $# -eq 0 ]; then
    echo "$list"
    exit
fi

folder=$(mktemp -d)
jobs=() files=()
end() {
    for job in "${jobs[@]}"; do kill "$job" 2> /dev/null || true; done
    rm -rf "$folder"
}
trap end EXIT
while read -r first last; do
    files+=("$folder/$first.csv")
    "$@" "$first" "$last" > "$folder/$first.csv" &
    jobs+=($!)
done <<< "$list"
status=0
for job in "${jobs[@]}"; do
    wait "$job" || status=$((status ? status : $?))
done
jobs=()
[ "$status" -eq 0 ] || exit "$status"
awk 'NR == 1 || FNR > 1' "${files[@]}"
