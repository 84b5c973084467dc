#!/usr/bin/env bash
# Makes the tables of this folder again and compares them with those here; with --write it writes them here.
# TOHMERIL names another program than the one of this repository.
set -eu
here=$(cd "$(dirname "${BASH_SOURCE[0]}")" && pwd)
program=${TOHMERIL:-$here/../../tohmeril}
folder=$(mktemp -d)
trap 'rm -rf "$folder"' EXIT
sqlite3 "$folder/adjustments.db" < "$here/adjustments.sql"

run() { # table, pipeline, first session, last session, further words
    local table=$1 pipeline=$2 first=$3 last=$4
    shift 4
    "$program" run "$here/$pipeline.pl" "$here/sessions.csv" "$here/assets.csv" "$here/bars.csv" "$first" "$last" \
        --labels "$here/labels.csv" --adjustments "$folder/adjustments.db" "$@" > "$folder/$table.csv"
    if [ "$write" = yes ]; then
        cp "$folder/$table.csv" "$here/$table.csv"
    fi
    cmp "$folder/$table.csv" "$here/$table.csv" && echo "$table: $(($(wc -l < "$here/$table.csv") - 1)) rows, the same"
}

write=no
[ "${1-}" = --write ] && write=yes
run momentum momentum 2023-12-18 2023-12-29
run crossings crossings 2023-01-03 2023-12-29
run bands bands 2023-10-02 2023-12-29
run liquidity liquidity 2023-12-01 2023-12-08
run value value 2023-10-26 2023-11-07 --numbers "$here/numbers.csv"
run size size 2023-06-12 2023-06-16
run revised bands 2023-10-02 2023-12-29 --revisions "$here/revisions.csv"
