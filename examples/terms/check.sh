#!/usr/bin/env bash
# Gives each example of docs/TERMS.md to `check`, as a pipeline of its own, and says which are refused.
# TOHMERIL names another program than the one of this repository.
set -eu
top=$(cd "$(dirname "${BASH_SOURCE[0]}")/../.." && pwd)
program=${TOHMERIL:-$top/tohmeril}
folder=$(mktemp -d)
trap 'rm -rf "$folder"' EXIT
examples=0
refused=0
# shellcheck disable=SC2016  # backquotes of the page
while IFS= read -r line; do
    # a screen alone is no pipeline
    printf 'pipeline 4;\n%s\ncolumn one = 1;\n' "$line" > "$folder/p.pl"
    examples=$((examples + 1))
    if ! "$program" check "$folder/p.pl" > "$folder/out" 2> "$folder/err"; then
        refused=$((refused + 1))
        printf '%s: %s\n' "$line" "$(cat "$folder/err")"
    fi
done < <(grep -o '`\(column\|screen\) [^`]*;` |$' "$top/docs/TERMS.md" | sed 's/^`//; s/` |$//; s/\\|/|/g')
echo "$examples examples, $refused refused"
[ "$refused" -eq 0 ]
