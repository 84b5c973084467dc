#!/usr/bin/env bash
# Runs the examples of all pages, and the recipes, over the built program, and prints what differs.
#
# In README.md, docs/*.md and the README.md of examples, of its alpha158 and of its alphas101 a block ```console has
# commands after `$ ` and what each prints; a line `..` there means any lines. Each block begins at the top of a copy of
# the checkout, in which a page leaves its files. Blocks ```python are run too, and the tables of docs/LANGUAGE.md and
# docs/TERMS.md. The examples of python/README.md and docs/ZIPLINE.md are run by python/check.sh.
#
# The program is crates/pl_main/out/pl_main, or the one that TOHMERIL names. Without a program, or a part that is
# needed and that TOHMERIL_WITHOUT does not leave out (tools/parts.sh), this says so and ends with 3. The last line
# is `examples: N passed, M failed`.
set -u
top=$(cd "$(dirname "${BASH_SOURCE[0]}")/.." && pwd)
# shellcheck source=tools/parts.sh
. "$top/tools/parts.sh"
program=$(realpath -m "${TOHMERIL:-$top/crates/pl_main/out/pl_main}")
parts=(distributed git man matplotlib pandas parallel sqlite3)
need_program examples "$program"
need examples "${parts[@]}"
if is_left_out sqlite3; then
    tell_left_out examples sqlite3
    echo "examples: 0 passed, 0 failed"
    exit 0
fi
work=$(mktemp -d)
trap 'rm -rf "$work"' EXIT
mkdir "$work/bin" "$work/copy" "$work/home"
passed=0 failed=0

# The tools as the pages call them: the program, and the Python that has pandas.
ln -s "$program" "$work/bin/tohmeril"
python=$(realpath -s "$(command -v "$python")")
! is_left_out pandas || python=
if [ -n "$python" ]; then
    printf '#!/bin/sh\nexec %q "$@"\n' "$python" > "$work/bin/python3"
    chmod +x "$work/bin/python3"
fi
export PYTHONUSERBASE=${PYTHONUSERBASE:-${HOME:-/nowhere}/.local} HOME=$work/home
export PATH=$work/bin:$PATH TOHMERIL=$program PYTHONDONTWRITEBYTECODE=1 PYTHONPATH=$work/copy/python TMPDIR=$work
export MPLCONFIGDIR=$work DASK_CONFIG=$work DASK_TEMPORARY_DIRECTORY=$work
git_folder=$(git -C "$top" rev-parse --absolute-git-dir 2> /dev/null) && export GIT_DIR=$git_folder

pass() { passed=$((passed + 1)); }
fail() { failed=$((failed + 1)); echo "differs: $*"; }
holds() { # WHAT COMMAND..
    local what=$1
    shift
    if "$@" > /dev/null 2>&1; then pass; else fail "$what"; fi
}

# A fresh copy of what the pages speak of, in which ./tohmeril is the built program.
copy() {
    rm -rf "$work/copy" "${work:?}/home"
    mkdir -p "$work/home" "$work/copy/crates/pl_main/out"
    cp -r "$top/README.md" "$top/docs" "$top/examples" "$top/python" "$work/copy"
    ln -s "$program" "$work/copy/tohmeril"
    ln -s "$program" "$work/copy/crates/pl_main/out/pl_main"
    cd "$work/copy" || exit 1
}

# Whether the lines of the second file are those of the first, where `..` means any.
matches() {
    awk 'NR == FNR { want[n++] = $0; next } { got[m++] = $0 }
        END {
            i = j = 0
            while (i < n) {
                if (want[i] == "..") {
                    if (++i == n) exit 0
                    while (j < m && got[j] != want[i]) j++
                }
                if (j >= m || got[j++] != want[i++]) exit 1
            }
            exit (j < m)
        }' "$1" "$2"
}

# try WHAT COMMAND..: the command ends with 0.
try() {
    local what=$1
    shift
    if "$@" > "$work/out" 2>&1; then pass; else fail "$what" && tail -n 20 "$work/out"; fi
}

# same WHAT FILE COMMAND..: what the command prints is the file.
same() {
    local what=$1 file=$2
    shift 2
    "$@" > "$work/out" 2> "$work/err" || { fail "$what: status $?" && tail -n 5 "$work/err"; return; }
    if cmp -s "$file" "$work/out"; then pass; else fail "$what" && diff "$file" "$work/out" | head -n 20; fi
}

# Runs a command of a page and compares what it prints. Where a part is left out, so is the rest of its block.
run_command() {
    local status=0
    case $2 in
        python3*) [ -n "$python" ] || skipped=yes ;;
        git*) ! is_left_out git || return 0 ;;
    esac
    [ "$skipped" = no ] || return 0
    case $2 in
        "cd "*) where=$(cd "$where" && eval "$2" && pwd) && return ;;
    esac
    (cd "$where" && eval "$2") > "$work/got" 2>&1 < /dev/null || status=$?
    if matches "$work/wanted" "$work/got" && { [ "$status" = 0 ] || [ -s "$work/wanted" ]; }; then
        pass
    else
        fail "$1: $2 (status $status)"
        diff "$work/wanted" "$work/got" | head -n 20
    fi
}

# Runs a block of Python, which a page of doctests is not made of.
run_python() {
    [ -n "$python" ] && ! grep -q '^>>>' block.py || return 0
    try "$1: a block of Python" "$python" block.py
}

run_page() {
    local line command="" inside=no
    copy
    while IFS= read -r line; do
        case $inside:$line in
            'no:```console') inside=yes command="" where=$work/copy skipped=no ;;
            'no:```python') inside=python && : > block.py ;;
            'python:```') inside=no && run_python "$1" ;;
            python:*) printf '%s\n' "$line" >> block.py ;;
            'yes:$ '* | 'yes:```')
                [ -z "$command" ] || run_command "$1" "$command"
                command=${line#\$ }
                : > "$work/wanted"
                [ "$line" != '```' ] || inside=no command=""
                ;;
            yes:*) printf '%s\n' "$line" >> "$work/wanted" ;;
        esac
    done < "$top/$1"
}

# answers TEXT LINE: what `check` says of a text.
answers() {
    printf '%s' "$1" > text.pl
    "$program" check text.pl > "$work/out" 2>&1
    if [ "$(cat "$work/out")" = "$2" ]; then pass; else fail "docs/LANGUAGE.md: $2" && head -n 5 "$work/out"; fi
}

# shellcheck disable=SC2016  # backquotes of the pages
# The tables of docs/LANGUAGE.md: texts with the place of their fault, and texts with their printed form.
language() {
    local text answer line column fault
    answers "pipeline 1;"$'\n'"column x = $(printf '(%.0s' {1..33})" "text.pl:2:44: syntax TooDeep"
    answers "pipeline 1;"$'\n'"$(printf 'column c%s = 1;\n' {1..65})" "limit: columns"
    answers "pipeline 1;"$'\n'"$(seq 257 | sed 's/.*/let a& = &;/')" "limit: terms"
    answers $'pipeline 1;\nlet b = 1;\n\n' "text.pl:4:1: check NoColumn"
    while IFS=$'\t' read -r text answer; do
        printf 'pipeline 1;\n%s\n' "$text" > text.pl
        case $text in *screen\ a | *\"ab) printf 'pipeline 1;\n%s' "$text" > text.pl ;; esac
        read -r fault line column < <(sed 's/,.*//; s/ at /:/; s/:/ /g' <<< "$answer")
        if "$program" check text.pl 2>&1 | grep -q "^text.pl:$line:$column: [a-z]* $fault\$"; then pass; else
            fail "docs/LANGUAGE.md: $text: $answer" && "$program" check text.pl
        fi
    done < <(sed -n 's/^| `\(.*;\|screen a\|screen "ab\)` | \([A-Z][A-Za-z]* at [0-9:]*.*\) |$/\1\t\2/p' docs/LANGUAGE.md | sed 's/\\|/|/g')
    while IFS=$'\t' read -r text answer; do
        printf 'pipeline 1;\n%s\n' "$text" > text.pl
        if [ "$("$program" fmt text.pl 2>&1)" = $'pipeline 1;\n'"$answer" ]; then pass; else
            fail "docs/LANGUAGE.md: $text is printed $answer" && "$program" fmt text.pl
        fi
    done < <(sed -n '/^| Written | Printed |/,/^$/s/^| `\(.*\)` | `\(.*\)` |$/\1\t\2/p' docs/LANGUAGE.md | sed 's/\\|/|/g')
}

# docs/COMMANDS.md, the manual page and the completions have the same commands, and the same options.
same_words() {
    local page=docs/COMMANDS.md
    sed -n 's/^| `\([a-z]*\) [A-Z].*/\1/p' $page | sort -u > "$work/commands"
    sed 's/\\//g' docs/tohmeril.1 | sed -n 's/^\.B tohmeril \([a-z]*\) .*/\1/p' | sort -u > "$work/got"
    holds "the commands of docs/tohmeril.1" cmp "$work/commands" "$work/got"
    sed -n 's/.*compgen -W "\(run[a-z ]*\)".*/\1/p' docs/tohmeril.bash | tr ' ' '\n' | sort -u > "$work/got"
    holds "the commands of docs/tohmeril.bash" cmp "$work/commands" "$work/got"
    sed -n 's/^| `--.*/&/p' $page | grep -o -- '--[a-z]*' | grep -v '^--$' | sort -u > "$work/options"
    sed 's/\\//g' docs/tohmeril.1 | grep -o -- '--[a-z][a-z]*' | sort -u > "$work/got"
    holds "the options of docs/tohmeril.1" cmp "$work/options" "$work/got"
    sed -n 's/.*options="\(.*\)".*/\1/p' docs/tohmeril.bash | tr ' ' '\n' | sort -u > "$work/got"
    holds "the options of docs/tohmeril.bash" cmp "$work/options" "$work/got"
    is_left_out man ||
        holds "the manual page has warnings" test -z "$(LC_ALL=C.UTF-8 man -l --warnings docs/tohmeril.1 2>&1 > /dev/null)"
}

# Each file of a folder is the one beside it.
same_files() {
    local file
    for file in "$1"/*; do
        holds "$2/$(basename "$file") is not what make.py writes" cmp "$file" "$2/$(basename "$file")"
    done
}

# A job of each morning over the files of examples/first: its rows are those of one run.
mornings() {
    local day recipe=$PWD/examples/recipes/morning.sh first=$PWD/examples/first
    [ -n "$python" ] || return
    mkdir store news
    (sed 's/^pipeline 1/pipeline 3/' "$first/averages.pl"; echo 'column score = number("score");') > store/p.pl
    sqlite3 store/adjustments.db < examples/first/adjustments.sql
    head -n 3 "$first/sessions.csv" > store/sessions.csv
    printf '%s' "$(head -n 3 "$first/bars.csv")" > store/bars.csv # without the last line's end
    head -n 1 "$first/revisions.csv" > store/revisions.csv
    printf 'sid,start,end\n1,2024-01-02,2024-01-05\n' > store/assets.csv
    printf 'session,sid,latest,mean_3,score\n' > rows
    printf 'name,sid,known,value\nscore,1,2024-01-05,1.5\nscore,1,2024-01-06,-2\n' > numbers.csv
    for day in 2024-01-05 2024-01-08 2024-01-09; do
        rm -rf news
        mkdir news
        (head -n 1 "$first/bars.csv"; grep ",$(tail -n 1 store/sessions.csv)," "$first/bars.csv") > news/bars.csv
        case $day in
            2024-01-05)
                cp "$first/revisions.csv" news
                head -n 2 numbers.csv > news/numbers.csv
                ;;
            2024-01-08)
                cp "$first/assets.csv" news
                sed 2d numbers.csv > news/numbers.csv
                printf 'date,num,den,sid\n2024-01-08,9,10,1\n' > news/mergers.csv
                ;;
            *) awk -F, -v OFS=, '{ print $7, $2, $1, $6, $3, $5, $4 }' news/bars.csv > other && mv other news/bars.csv ;;
        esac
        # two at once, one of which is ended wherever it is, and then once more
        "$recipe" store news "$day" > /dev/null 2>> said &
        (timeout -s KILL 0.7 "$recipe" store news "$day" > /dev/null; true) 2>> said
        wait
        "$recipe" store news "$day" 2>> said | tail -n +2 >> rows
    done
    same "morning.sh" rows "$program" run store/p.pl "$first/sessions.csv" "$first/assets.csv" "$first/bars.csv" 2024-01-05 2024-01-09 \
        --adjustments store/adjustments.db --revisions "$first/revisions.csv" --numbers numbers.csv
    rm news/*
    refused "no bars of 2024-01-09, the last session" store news 2024-01-10
    "$recipe" store news 2024-01-10 --without-bars 2> said > /dev/null || fail "morning.sh: a day more"
    holds "morning.sh: an end that is reached" grep 'no row on 2024-01-10: 1;' said
    cp "$first/bars.csv" news
    refused "no bars of 2024-01-10, the last session; there are those of 2024-01-09" store news 2024-01-11
    printf 'sid,session,open,high,low,close,volume\n7,2024-01-10,1,1,1,1\n' > news/bars.csv
    printf 'sid,start,end\n7,2024-01-09,2199-12-31\n' > news/assets.csv
    refused "assets: 7 starts on 2024-01-09" store news 2024-01-11
    rm news/assets.csv
    refused "2024-01-13 is a Saturday" store news 2024-01-13
    refused "2024-01-09 is no day after 2024-01-10" store news 2024-01-09
    printf 'sid,open,high,low,close,volume\n7,1,1,1,1,1\n' > news/bars.csv
    refused "bars: there is no column session" store news 2024-01-11
}

# refused SENTENCE WORD..: morning.sh with these words says so, ends with 4, and leaves the store as it was.
refused() {
    local sentence=$1 status=0 before
    before=$(cd store && cat ./*.csv | cksum)
    shift
    examples/recipes/morning.sh "$@" > "$work/out" 2> "$work/err" || status=$?
    holds "morning.sh: $sentence, status $status" test "$status" = 4 -a ! -s "$work/out" -a "$before" = "$(cd store && cat ./*.csv | cksum)"
    holds "morning.sh: $sentence: $(cat "$work/err")" grep -q "$sentence" "$work/err"
}

# A range of the market, and what each way of running it in pieces has to give: whole.csv, or plain.csv without adjustments.
make_range() {
    cp examples/market/crossings.pl p.pl
    cp examples/market/{sessions,assets,bars,labels}.csv .
    mkdir "a folder's" data
    cp labels.csv "a folder's"
    sqlite3 adjustments.db < examples/market/adjustments.sql
    cp {sessions,assets,bars,labels}.csv adjustments.db data
    words=(run p.pl sessions.csv assets.csv bars.csv --adjustments adjustments.db --labels "a folder's/labels.csv")
    "$program" "${words[@]}" 2023-01-03 2023-12-29 > whole.csv
    "$program" run p.pl sessions.csv assets.csv bars.csv 2023-01-03 2023-12-29 > plain.csv
    examples/recipes/pieces.sh sessions.csv 2023-01-03 2023-12-29 4 > pieces
}

on_one_machine() {
    local recipes=$PWD/examples/recipes words status=0
    make_range
    same "pieces.sh" whole.csv "$recipes/pieces.sh" sessions.csv 2023-01-03 2023-12-29 4 tohmeril "${words[@]}"
    "$recipes/pieces.sh" sessions.csv 2023-01-01 2023-12-29 4 2> /dev/null || status=$?
    holds "pieces.sh: a FROM that is no session, status $status" test "$status" = 5
    status=0
    "$recipes/pieces.sh" sessions.csv 2022-08-01 2023-12-29 4 tohmeril "${words[@]}" > out.csv 2> /dev/null || status=$?
    holds "pieces.sh: a piece that fails, status $status" test "$status" = 5 -a ! -s out.csv
    [ -n "$python" ] || return
    "$python" "$recipes/cut.py" p.pl data 2023-01-03 2023-12-29 3 cuts > cut_pieces || fail cut.py
    while read -r folder first last; do
        "$program" run p.pl sessions.csv "$folder/assets.csv" "$folder/bars.csv" "$first" "$last" \
            --adjustments "$folder/adjustments.db" > "$folder/table.csv" || fail "cut.py: $folder"
    done < cut_pieces
    same cut.py whole.csv awk 'NR == 1 || FNR > 1' cuts/{0,1,2}/table.csv
}

on_many_machines() {
    local recipes=$PWD/examples/recipes words
    make_range
    if ! is_left_out parallel; then
        parallel -k -j4 --colsep ' ' tohmeril run p.pl sessions.csv assets.csv bars.csv '{1}' '{2}' < pieces 2> "$work/err" |
            awk 'NR == 1 { header = $0 } NR == 1 || $0 != header' > out.csv
        holds "parallel over the list of pieces" cmp plain.csv out.csv
    fi
    # where no Slurm runs, its jobs are called one after the other, as it would call them
    if command -v sbatch > /dev/null && [ -n "$(sinfo -h -t idle,mix 2> /dev/null)" ]; then
        sbatch --wait --array=1-4 "$recipes/slurm.sh" > "$work/out" 2>&1 || fail "slurm.sh: $(cat "$work/out" piece-*.log)"
    else
        for job in 1 2 3 4; do
            SLURM_ARRAY_TASK_ID=$job "$recipes/slurm.sh" || fail "slurm.sh: piece $job"
        done
    fi
    awk 'NR == 1 || FNR > 1' piece-{1..4}.csv > out.csv
    holds "slurm.sh" cmp whole.csv out.csv
    [ -z "$python" ] || is_left_out distributed ||
        same cluster.py whole.csv timeout 120 "$python" "$recipes/cluster.py" p.pl data 2023-01-03 2023-12-29
}

recipes() {
    local recipes=$PWD/examples/recipes
    for table in splits mergers dividends; do
        printf 'date,num,den,sid\n2024-01-04,1,2,1\n' > "$table.csv"
    done
    try adjustments.sh "$recipes/adjustments.sh" splits.csv mergers.csv dividends.csv made.db
    sqlite3 -csv made.db 'SELECT * FROM splits' > got
    holds "adjustments.sh: $(cat got)" test "$(cat got)" = 1,1704326400,1,2,1
    [ -n "$python" ] || return
    printf 'day,AAA,BBB\n2024-01-02,10,20\n2024-01-03,11,\n' > close.csv
    try bars.py "$python" "$recipes/bars.py" made close.csv
    sqlite3 examples/market/adjustments.db < examples/market/adjustments.sql
    try table.py "$python" "$recipes/table.py" examples/market/liquidity.pl examples/market 2023-12-01 2023-12-08
    try neutral.py "$python" "$recipes/neutral.py" examples/market 2023-12-01 2023-12-04 101 60
    is_left_out matplotlib || try picture.py "$python" "$recipes/picture.py" examples/market 2023-10-02 2023-11-30 5 .
}

for page in README.md $(cd "$top" && ls docs/*.md examples/README.md examples/alpha*/README.md); do
    run_page "$page"
done
copy
language
same_words
try tools/pages "$top/tools/pages"
try examples/terms/check.sh examples/terms/check.sh
try examples/market/run.sh examples/market/run.sh
if [ -n "$python" ]; then
    try "examples/market/exact.py" "$python" examples/market/exact.py examples/market
    try "examples/market/compare.py" "$python" examples/market/compare.py examples/market
    mkdir market vendor
    "$python" examples/market/make.py market && same_files market examples/market
    "$python" examples/vendor/make.py vendor && same_files vendor examples/vendor
fi
for part in recipes mornings on_one_machine on_many_machines; do
    copy
    $part
done
tell_left_out examples "${parts[@]}"
echo "examples: $passed passed, $failed failed"
[ "$failed" -eq 0 ]
