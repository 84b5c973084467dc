#!/bin/sh
# tohmeril-version: prints the version of this release of Tohmeril, and whether the program beside it is the one that the release
# names. It ends with 1 where it is another.
set -eu
place=$(dirname "$(readlink -f "$0")")
proved=$place/../share/doc/tohmeril/PROVED
sum=$(sha256sum < "$place/tohmeril" | cut -d ' ' -f 1)
named=$(sed -n 's/^program: //p' "$proved")
echo "tohmeril $(sed -n 's/^version: //p' "$proved")"
echo "program: $(readlink -f "$place/tohmeril")"
echo "sha256: $sum"
if [ "$sum" != "$named" ]; then
    echo "release: this is another program than the one of the release, which is $named"
    exit 1
fi
echo "release: the program is the one of the release, of commit $(sed -n 's/^commit: //p' "$proved"); gate: $(sed -n 's/^gate: //p' "$proved")"
