#!/usr/bin/env bash
# Makes the tables of this folder again, over the market beside it, and compares them with those here; with --write it
# writes them here. TOHMERIL names another program than the one of this repository.
set -eu
here=$(cd "$(dirname "${BASH_SOURCE[0]}")" && pwd)
market=$here/../market
program=${TOHMERIL:-$here/../../tohmeril}
folder=$(mktemp -d)
trap 'rm -rf "$folder"' EXIT
sqlite3 "$folder/adjustments.db" < "$market/adjustments.sql"

for table in correlations changes; do
    "$program" run "$here/$table.pl" "$market/sessions.csv" "$market/assets.csv" "$market/bars.csv" 2023-07-14 2023-07-18 \
        --adjustments "$folder/adjustments.db" > "$folder/$table.csv"
    if [ "${1-}" = --write ]; then
        cp "$folder/$table.csv" "$here/$table.csv"
    fi
    cmp "$folder/$table.csv" "$here/$table.csv" && echo "$table: $(($(wc -l < "$here/$table.csv") - 1)) rows, the same"
done
