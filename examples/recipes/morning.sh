#!/usr/bin/env bash
# A job for each morning: takes in what came since the last one, and prints the rows of today.
# Usage: morning.sh STORE NEWS TODAY [--without-bars] [--late] [--weekend]
#
# STORE holds the files of a run and the pipeline p.pl: Data.write makes it, or they are put there by hand
# (sessions.csv, assets.csv, bars.csv, adjustments.db, and where they are used labels.csv, numbers.csv,
# revisions.csv). NEWS holds what came; what did not come may be left out:
#   bars.csv                                       the bars of the last session
#   labels.csv, numbers.csv, revisions.csv         new records
#   assets.csv                                     new assets, and those with another end
#   splits.csv, mergers.csv, dividends.csv         date,num,den,sid, or others that Data.write takes
# All of it is added at once and checked before, by `python3 -m tohmeril append` of the package in python/,
# whose --help has the options: where something is wrong STORE stays as it was, and the status is 4. So it is
# where no bars of the last session have come. Ended anywhere, it can be called again: a second call for the
# same morning adds nothing and prints the same rows. Two at once take turns. TOHMERIL names the program, if
# it is not on the path.
set -euo pipefail
if [ $# -lt 3 ]; then
    echo "usage: morning.sh STORE NEWS TODAY [--without-bars] [--late] [--weekend]" >&2
    exit 2
fi
store=$(cd "$1" && pwd) today=$3
python3 -m tohmeril append "$@"

# Today's rows, over the files of one version, which a lock keeps there.
cd -P "$store/versions/current"
exec 9< lock
flock -s 9
options=()
for option in labels:labels.csv numbers:numbers.csv revisions:revisions.csv adjustments:adjustments.db; do
    [ ! -e "${option#*:}" ] || options+=("--${option%%:*}" "${option#*:}")
done
"${TOHMERIL:-tohmeril}" run "$store/p.pl" sessions.csv assets.csv bars.csv "$today" "$today" "${options[@]}"
