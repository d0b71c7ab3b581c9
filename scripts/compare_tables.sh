#!/bin/sh
# compare_tables.sh RAV1E
#
# Compares the tables and constants of crates/av1_geometry number by number with those of rav1e's files in the folder RAV1E.
# Ends with status 1 where a number differs.
set -eu
if [ $# -ne 1 ] || [ ! -d "$1" ]; then
  echo "usage: compare_tables.sh RAV1E, where RAV1E is a checkout of rav1e" >&2
  exit 2
fi
here=$(CDPATH= cd -- "$(dirname -- "$0")/.." && pwd)
exec python3 "$here/scripts/compare_tables.py" "$1" "$here/crates/av1_geometry/src"
