#!/bin/sh
# run.sh SOURCES DIR SEED [ACCEPTED [DAMAGED [MAXV]]]: build the oracle, make a suite in DIR, answer it, compare with the second implementation.
set -e
[ $# -ge 3 ] || { echo "usage: run.sh SOURCES DIR SEED [ACCEPTED [DAMAGED [MAXV]]]" >&2; exit 2; }
here=$(cd "$(dirname "$0")" && pwd)
out=${OUT:-$(mktemp -d)}
"$here/build.sh" "$1" "$out"
rm -rf "$2"
python3 "$here/py/gen.py" "$2" "$3" "${4:-100}" "${5:-500}" "${6:-128}"
"$out/oracle" suite "$2"
python3 "$here/py/second.py" suite "$2"
