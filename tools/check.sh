#!/usr/bin/env bash
# Checks of the scripts: a check that lacks what it needs ends with 3, the set-up does nothing where all is here, the gate counts all of
# its parts, the program's peers print its tables, and a release can be made, is the same in another folder, and gives a frame where it
# is installed.
#
# The program is the one that TOHMERIL names, else the one built in crates/pl_main/out. The release is that of the last commit. The
# last line is `scripts: N passed, M failed`.
set -u
top=$(cd "$(dirname "${BASH_SOURCE[0]}")/.." && pwd)
# shellcheck source=tools/parts.sh
. "$top/tools/parts.sh"
program=$(realpath -m "${TOHMERIL:-$top/crates/pl_main/out/pl_main}")
need_program scripts "$program"
parts=(git pandas setuptools sqlite3 venv wheel)
need scripts gcc "${parts[@]}"
work=$(mktemp -d)
trap 'rm -rf "$work"' EXIT
passed=0 failed=0
without=${TOHMERIL_WITHOUT:-}
unset PYTHON TOHMERIL
export GIT_CONFIG_GLOBAL=$work/gitconfig PYTHONDONTWRITEBYTECODE=1
git config --global safe.directory '*'

# ends STATUS TEXT COMMAND..: the command ends with this status, and says the text.
ends() {
    local ended=0
    "${@:3}" > "$work/out" 2>&1 < /dev/null || ended=$?
    if [ "$ended" = "$1" ] && { [ -z "$2" ] || grep -qF -- "$2" "$work/out"; }; then
        passed=$((passed + 1))
    else
        failed=$((failed + 1))
        echo "failed: ${*:3}: status $ended in place of $1, or not: $2"
        tail -n 10 "$work/out"
    fi
}

# concludes STATUS LINE COMMAND..: the command ends with this status, and prints this last line.
concludes() {
    ends "$1" "" "${@:3}"
    tail -n 1 "$work/out" > "$work/line"
    ends 0 "" test "$(cat "$work/line")" = "$2"
}

# is_silent COMMAND..: the command ends with 0 and says nothing.
is_silent() {
    ends 0 "" "$@"
    ends 1 "" test -s "$work/out"
}

# Folders for the path: all commands but one; commands that fail; Python without the modules of HIDDEN.
make_folders() {
    local each
    for each in sqlite3 parallel man; do
        mkdir "$work/no-$each"
        ln -sf -t "$work/no-$each" /bin/* /usr/bin/* 2> /dev/null
        rm -f "$work/no-$each/$each"
    done
    mkdir "$work/fake" "$work/hide"
    printf '#!/bin/sh\necho called\nexit 1\n' | tee "$work/fake/apt-get" > "$work/fake/sudo"
    printf '#!/bin/sh\necho 1000\n' > "$work/fake/id"
    chmod +x "$work"/fake/*
    printf 'import os, sys\nsys.modules.update(dict.fromkeys(os.environ.get("HIDDEN", "").split(",")))\n' > "$work/hide/sitecustomize.py"
}

# Each check without a part that it needs.
lacking_parts() {
    local each hide=(env "PYTHONPATH=$work/hide" "TOHMERIL=$program")
    for each in tools/streams.sh python/check.sh examples/check.sh; do
        ends 3 "there is no program $work/none" env TOHMERIL="$work/none" "$top/$each"
    done
    for each in pandas pytest matplotlib tqdm distributed; do
        is_left_out "$each" || ends 3 "$each. Run tools/setup" "${hide[@]}" HIDDEN="$each" "$top/python/check.sh"
    done
    is_left_out pandas || ends 3 "pandas. Run tools/setup" "${hide[@]}" HIDDEN=pandas "$top/examples/check.sh"
    for each in sqlite3 parallel man; do
        is_left_out "$each" ||
            ends 3 "$each. Run tools/setup" env PATH="$work/no-$each" TOHMERIL="$program" "$top/examples/check.sh"
    done
    ends 2 "has no part panda" env TOHMERIL_WITHOUT=panda TOHMERIL="$program" "$top/python/check.sh"
    ends 0 "python: without pytest" "${hide[@]}" HIDDEN=pytest TOHMERIL_WITHOUT="$without,pytest" "$top/python/check.sh"
    is_left_out pytest && return
    printf 'import pytest\n\n\ndef test_nothing():\n    pytest.skip("no reason")\n' > "$work/test_skip.py"
    ends 1 "python: 0 passed, 1 failed" env TOHMERIL="$program" TOHMERIL_WITHOUT= "$top/python/check.sh" "$work/test_skip.py"
}

# The set-up asks nobody for anything where all is here, and a user without rights gets the line to run.
set_up() {
    is_silent env PATH="$work/fake:$PATH" "$top/tools/setup"
    ends 3 "apt-get install -y --no-install-recommends python3-pandas sqlite3" env PATH="$work/fake:$work/no-sqlite3" \
        PYTHONPATH="$work/hide" HIDDEN=pandas "$top/tools/setup"
}

# part FOLDER NAME STATUS LINE: a script of a checkout that prints a line.
part() {
    mkdir -p "$(dirname "$1/$2")"
    printf '#!/bin/sh\necho "%s"\nexit %s\n' "$4" "$3" > "$1/$2"
    chmod +x "$1/$2"
}

# The gate, over parts that print a line each.
gate() {
    local at=$work/gate run each
    mkdir -p "$at/.ci"
    cp "$top/.ci/run" "$at/.ci/run"
    run=(env PATH="$at/bin:$PATH" "$at/.ci/run")
    while read -r each; do
        part "$at" "$each" 0 "0 passed, 0 failed"
    done < <(sed -n 's/^ *try \([a-z][^ ]*\) \1$/\1/p' "$top/.ci/run")
    part "$at" tools/setup 0 "" && part "$at" tools/release 0 "record"
    part "$at" bin/rt 0 "7 passed, 0 failed" && part "$at" tools/streams.sh 0 "1 passed, 0 failed"
    part "$at" python/check.sh 0 "python: 20 passed, 0 failed" && part "$at" examples/check.sh 0 "examples: 300 passed, 0 failed"
    part "$at" tools/check.sh 0 "scripts: 4000 passed, 0 failed"
    concludes 0 "4328 passed, 0 failed" "${run[@]}"
    ends 0 "record" cat "$at/crates/pl_main/out/gate"
    part "$at" python/check.sh 3 "python: not tested"
    concludes 3 "4308 passed, 1 failed" "${run[@]}"
    part "$at" python/check.sh 1 "python: 18 passed, 2 failed"
    concludes 1 "4326 passed, 2 failed" "${run[@]}"
    part "$at" tools/setup 3 "setup: as root"
    concludes 3 "4326 passed, 3 failed" "${run[@]}"
    part "$at" bin/rt 4 "6 passed, 1 failed"
    concludes 4 "6 passed, 1 failed" "${run[@]}"
    ends 1 "" test -e "$at/crates/pl_main/out/gate"
    part "$at" bin/rt 5 "killed"
    concludes 5 "0 passed, 1 failed" "${run[@]}"
}

# The peers of the benchmarks over a small world with gaps: their tables are the program's.
peers() {
    ends 0 "| twenty |" "$python" "$top/tools/peers/run.py" "$program" --sessions 300 --assets 60 --holes --rounds 1
}

# A clone in which the program is built, as it seems.
clone() {
    git clone -q "$top" "$1"
    install -D "$program" "$1/crates/pl_main/out/pl_main"
}

# The first table, from a clone.
example() {
    clone "$work/first"
    ends 0 "2024-01-09,1,53.000000,52.000000" "$work/first/tohmeril" example
    ends 0 "" test -s "$work/first/examples/market/adjustments.db"
    concludes 0 "$work/first/crates/pl_main/out/pl_main" "$work/first/tohmeril" --path
}

release() {
    local one=$work/one other=$work/other/folder log="9 passed, 0 failed" file
    clone "$one" && clone "$other"
    ends 1 "the gate has not passed here" "$one/tools/release"
    (cd "$one" && tools/release --record "$log" > crates/pl_main/out/gate && sed 's/^commit: /&0/' crates/pl_main/out/gate > "$work/record")
    cp "$one/crates/pl_main/out/gate" "$other/crates/pl_main/out/gate"
    ends 0 "gate: $log" "$one/tools/release"
    ends 0 "PROVED" bash -c "umask 077 && cd / && TZ=Asia/Tokyo LANG=C '$other/tools/release' --to '$work/dist'"
    for file in "$one"/dist/*; do
        ends 0 "" cmp "$file" "$work/dist/$(basename "$file")"
    done
    ends 0 "SHA256SUMS" ls "$work/dist"
    ends 0 "PROVED: OK" bash -c "cd '$work/dist' && sha256sum -c SHA256SUMS"
    ends 0 "gate: $log" cat "$work/dist/PROVED"
    mv "$work/record" "$one/crates/pl_main/out/gate"
    ends 1 "the gate has passed for 0" "$one/tools/release"
    echo >> "$one/README.md"
    ends 1 "files are changed" "$one/tools/release"
    ends 1 "no file of a release" "$one/tools/release" --verify "$one/README.md"
}

# What the files of a release install, with nothing of this checkout on the path.
installed() {
    local at=$work/installed bare=(env PATH=/usr/bin:/bin)
    mkdir "$at"
    dpkg-deb -x "$work"/dist/tohmeril_*.deb "$at"
    ends 0 "the program is the one of the release" "${bare[@]}" "$at/usr/bin/tohmeril-version"
    ends 0 "rows=34800" "${bare[@]}" "$at/usr/bin/tohmeril" bench 7
    tar -C "$at" -xzf "$work"/dist/tohmeril-*.tar.gz
    ends 0 "the program is the one of the release" "${bare[@]}" bash -c "'$at'/tohmeril-*/bin/tohmeril-version"
    echo >> "$at/usr/bin/tohmeril"
    ends 1 "another program" "${bare[@]}" "$at/usr/bin/tohmeril-version"
    "$python" -m venv --system-site-packages "$at/env"
    ends 0 "" "$at/env/bin/python" -m pip install -q --no-index --no-deps "$work"/dist/tohmeril-*.whl
    ends 0 "the program is the one of the release" "${bare[@]}" "$at/env/bin/python" -m tohmeril version
    ends 1 "another program" "${bare[@]}" TOHMERIL=/bin/true "$at/env/bin/python" -m tohmeril version
    cp -r "$top/examples/market" "$at/market"
    sqlite3 "$at/market/adjustments.db" < "$at/market/adjustments.sql"
    cat > "$at/frame.py" << 'END'
from tohmeril import Data, Pipeline, run_pipeline
from tohmeril.pipeline.factors import AverageDollarVolume, Returns

momentum = (1 + Returns(window_length=252)) / (1 + Returns(window_length=22)) - 1
pipe = Pipeline({"momentum": momentum}, screen=AverageDollarVolume(window_length=30).top(15))
print(run_pipeline(pipe, "2023-12-18", "2023-12-29", Data("market", revisions=None)).head(1))
END
    # the first row of README.md
    ends 0 "0.15558" bash -c "cd '$at' && PATH=/usr/bin:/bin env/bin/python frame.py"
}

make_folders
lacking_parts
set_up
gate
if is_left_out gcc || is_left_out pandas; then tell_left_out scripts gcc; else peers; fi
tell_left_out scripts "${parts[@]}" > "$work/left_out"
if [ -s "$work/left_out" ]; then
    cat "$work/left_out"
else
    example
    release
    installed
fi
echo "scripts: $passed passed, $failed failed"
[ "$failed" = 0 ]
