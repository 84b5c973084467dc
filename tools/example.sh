# shellcheck shell=bash disable=SC2034,SC2154
# The first table of README.md, from a checkout to its rows.

# Each folder of the examples gets its file of adjustments, so that whatever README.md says next has what it needs.
make_databases() {
    local text
    for text in "$top"/examples/*/adjustments.sql; do
        sqlite3 "${text%.sql}.db" < "$text" || stop "sqlite3 cannot write ${text%.sql}.db"
    done
}

# show_example HOW: sets up what is missing, makes the program by HOW, runs it, and says what to do next.
show_example() {
    local call=./tohmeril table=(run averages.pl sessions.csv assets.csv bars.csv 2024-01-05 2024-01-09 --adjustments adjustments.db)
    "$top/tools/setup" example
    "$1"
    make_databases
    [ "$at" = "$program" ] || call="./tohmeril --unproved"
    say "in examples/first, ../../${call#./} ${table[*]}:"
    (cd "$top/examples/first" && "$at" "${table[@]}")
    say "the latest close of an asset and the mean of three: it was split, one into two, and the bars before count as halves from then on"
    say "next, in $top:"
    say "  tools/setup python   an environment in which import tohmeril works (python/README.md)"
    [ "$at" = "$program" ] || say "  export TOHMERIL=\$(./tohmeril --unproved --path)   this program, for the Python package"
    say "  README.md, \"Your own data\", from files or frames of your own to a table"
    say "  .ci/run              proves all, and runs all tests"
}
