#!/usr/bin/env bash
# What the built program leaves where standard output, standard error or both take nothing: each write to
# /dev/full fails; where a file is not there or is a folder; and over database files, good and bad, which it never
# changes. It prints a line for each case and how many passed, and ends with 1 where one failed.
#
# The program is crates/pl_main/out/pl_main, or the one that TOHMERIL names. Without one it says so and ends with 3. The last
# line is `N passed, M failed`.
set -u
top=$(cd "$(dirname "$0")/.." && pwd)
program=$(realpath -m "${TOHMERIL:-$top/crates/pl_main/out/pl_main}")
# shellcheck source=tools/parts.sh
. "$top/tools/parts.sh"
need_program streams "$program"
folder=$(mktemp -d)
trap 'rm -rf "$folder"' EXIT
passed=0
failed=0

# left STATUS OUT ERR WORD..: the words are run with the outputs OUT and ERR. Where one of them is the file
# "held", it has to hold the bytes of the file "wanted".
left() {
    local status=$1 out=$2 err=$3 got same=yes
    shift 3
    rm -f held
    "$program" "$@" > "$out" 2> "$err"
    got=$?
    [ ! -e held ] || cmp -s held wanted || same=no
    if [ "$got" = "$status" ] && [ "$same" = yes ]; then
        passed=$((passed + 1))
        echo "passed: $status of $* > $out 2> $err"
    else
        failed=$((failed + 1))
        echo "failed: $status of $* > $out 2> $err: $got, $(head -c 200 held 2> /dev/null)"
    fi
}

# fails STATUS LINE WORD..: a command that ends with a status other than 0, over all kinds of outputs.
fails() {
    local status=$1 line=$2
    shift 2
    echo "$line" > wanted
    left "$status" /dev/full held "$@"
    left "$status" /dev/full /dev/full "$@"
}

cd "$folder" || exit 1
printf 'pipeline 1;\ncolumn c = close.latest;\n' > p.pl
cp "$top"/examples/market/{sessions,assets,bars}.csv .
table=(run p.pl sessions.csv assets.csv bars.csv 2022-07-05 2023-12-29)

# a short text is gathered, and fails as the program ends; a table of 7,120 rows fails in the run
fails 9 write fmt p.pl
fails 9 write "${table[@]}"
# so does a short table at its end, and then no numbers are told
fails 9 write run p.pl sessions.csv assets.csv bars.csv 2022-07-05 2022-07-05 --stats
# a pipeline file of 262,144 bytes is read whole, and one byte more is past the limit
printf '%s%*s' "$(cat p.pl)" $((262145 - $(wc -c < p.pl))) '' > longest.pl
{ cat longest.pl; echo; } > longer.pl
cp p.pl wanted
left 0 held /dev/full fmt longest.pl
fails 6 'limit: pipeline' fmt longer.pl
# another status stays, whatever becomes of its line
fails 7 'read: no-such-file' fmt no-such-file
fails 7 'read: .' fmt .
fails 2 usage format p.pl
: > wanted
left 7 held /dev/full fmt no-such-file
left 2 held /dev/full format p.pl
# with status 0 the text is whole, and the numbers are told or not
cp p.pl wanted
left 0 held /dev/full fmt p.pl
"$program" "${table[@]}" > wanted
left 0 held /dev/full "${table[@]}" --stats
# where both outputs are one file, the numbers stand after the last row
"$program" "${table[@]}" --stats 2>> wanted > /dev/null
"$program" "${table[@]}" --stats > held 2>&1
if cmp -s held wanted; then
    passed=$((passed + 1))
    echo "passed: the numbers stand after the table"
else
    failed=$((failed + 1))
    echo "failed: the numbers do not stand after the table: $(diff wanted held | head -c 200)"
fi

# A database that SQLite has left with its commits in the log alone: a split 1/2 on 2024-01-04 makes the 102 that
# is seen on that day 51, and changes no other day. It is read from a copy, since a reader may fold the log in.
cp "$top"/crates/pl_main/data/* "$top"/tools/adjusted.db{,-wal} .
printf '%s\n' session,sid,c 2024-01-03,1,100.000000 2024-01-04,1,51.000000 2024-01-05,1,51.000000 \
    2024-01-08,1,52.000000 2024-01-09,1,53.000000 > wanted
adjusted=(run p.pl sessions.csv assets.csv bars.csv 2024-01-03 2024-01-09 --adjustments)
left 0 held /dev/full "${adjusted[@]}" adjusted.db

# The same split in one file. A database whose transaction was cut off is refused, as its journal begins with another
# byte than 0, and so is what is no database, has nothing in it, is not there or is a folder. None of them is changed,
# and no file is made.
cp "$top"/tools/whole.db .
cp whole.db cut.db
printf '\xd9\xd5' > cut.db-journal
cp whole.db kept.db
printf '\0\xd5' > kept.db-journal
echo id,effective_date,num,den,sid > text.db
: > empty.db
sha256sum ./*.db* > before
left 0 held /dev/full "${adjusted[@]}" whole.db
left 0 held /dev/full "${adjusted[@]}" kept.db
for name in cut.db text.db empty.db no-such.db .; do
    fails 8 "store: $name" "${adjusted[@]}" "$name"
done
sha256sum ./*.db* > after
if cmp -s before after; then
    passed=$((passed + 1))
    echo "passed: no database was changed or made"
else
    failed=$((failed + 1))
    echo "failed: databases were changed or made: $(diff before after)"
fi

echo "$passed passed, $failed failed"
[ "$failed" = 0 ]
