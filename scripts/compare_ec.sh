#!/bin/sh
# compare_ec.sh BUILD [SCRIPTS [LINES]]
#
# Compares av1_ec's encoder with rav1e's own coder on random scripts of calls: bytes, tell, tell_frac, counts and costs.
# BUILD is what `yardstick/build.sh` made. Ends with status 1 where an answer differs.
set -eu
if [ $# -lt 1 ] || [ ! -x "$1/bin/ec_oracle" ]; then
  echo "usage: compare_ec.sh BUILD [SCRIPTS [LINES]], where BUILD was made by yardstick/build.sh" >&2
  exit 2
fi
here=$(CDPATH= cd -- "$(dirname -- "$0")/.." && pwd)
exec python3 "$here/scripts/compare_ec.py" "$1/bin" "$here/crates/av1_script" "${2:-2000}" "${3:-200}"
