#!/usr/bin/env bash
# The checks of the Python package: its tests, and the examples of its docstrings, of README.md and of docs/ZIPLINE.md.
#
# The program is the one that TOHMERIL names, else the one built in crates/pl_main/out. Without a program, or a part that the tests
# need and TOHMERIL_WITHOUT does not leave out (tools/parts.sh), it says so and ends with status 3. A test that is skipped for any
# other reason is a failure. The last line is `python: N passed, M failed`. It leaves nothing in the checkout.
set -eu
here=$(cd "$(dirname "${BASH_SOURCE[0]}")" && pwd)
top=$(dirname "$here")
# shellcheck source=tools/parts.sh
. "$top/tools/parts.sh"
export TOHMERIL=${TOHMERIL:-$top/crates/pl_main/out/pl_main}
export PYTHONDONTWRITEBYTECODE=1
parts=(pandas pytest black distributed graphviz matplotlib mypy setuptools sqlite3 tqdm venv wheel)
need_program python "$TOHMERIL"
need python "${parts[@]}"
if is_left_out pandas || is_left_out pytest; then
    tell_left_out python pandas pytest
    echo "python: 0 passed, 0 failed"
    exit 0
fi

folder=$(mktemp -d)
trap 'rm -rf "$folder"' EXIT
cd "$here"
# all that the tests write, and what matplotlib and dask keep of their own, goes into the folder
export TMPDIR=$folder MPLCONFIGDIR=$folder DASK_CONFIG=$folder DASK_TEMPORARY_DIRECTORY=$folder
status=0
timeout 1800 "$python" -m pytest -q -rsfE -p no:cacheprovider --basetemp "$folder/pytest" "$@" > "$folder/log" 2>&1 || status=$?
# of a failure the warnings are not shown, which may be hundreds of lines
[ $status = 0 ] || sed '/= warnings summary =/,/^-- Docs: /d' "$folder/log" | tail -n 300 | head -n -1
tail -n 1 "$folder/log"

# count WORD: how many tests the last line of pytest gives that word.
count() {
    tail -n 1 "$folder/log" | awk -v word="^$1" '{ for (i = 2; i <= NF; i++) if ($i ~ word) n = $(i - 1) } END { print n + 0 }'
}

failed=$(($(count failed) + $(count error)))
if [ "$(count skipped)" != 0 ] && [ "$left_out" = ,, ]; then
    grep '^SKIPPED' "$folder/log"
    failed=$((failed + $(count skipped)))
fi
[ "$status" = 0 ] || [ "$failed" != 0 ] || failed=1
tell_left_out python "${parts[@]}"
echo "python: $(count passed) passed, $failed failed"
[ "$failed" = 0 ]
