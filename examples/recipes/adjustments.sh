#!/usr/bin/env bash
# A file of adjustments from three CSV files. Usage: adjustments.sh SPLITS MERGERS DIVIDENDS DATABASE Each CSV
# file has the header `date,num,den,sid`, and prices before the date are multiplied by num / den: a split of
# one share into two is 1,2. Rows act in the order of the file where their dates are equal.
set -eu
database=$4
rm -f "$database"
for table in splits mergers dividends; do
    file=$1
    shift
    sqlite3 "$database" <<SQL
CREATE TABLE $table (id INTEGER PRIMARY KEY, effective_date INTEGER NOT NULL,
  num INTEGER NOT NULL, den INTEGER NOT NULL, sid INTEGER NOT NULL) STRICT;
CREATE TABLE rows (date TEXT, num INTEGER, den INTEGER, sid INTEGER);
.import --csv --skip 1 "$file" rows
INSERT INTO $table (effective_date, num, den, sid) SELECT unixepoch(date), num, den, sid FROM rows ORDER BY rowid;
DROP TABLE rows;
SQL
    sqlite3 "$database" "SELECT '$table: ' || count(*) || ' rows' FROM $table"
done
