#!/bin/sh
# look.sh UNIT.json [UNIT.obu]
#
# Writes a unit, keeps its bytes as a file of OBUs (UNIT.obu; beside UNIT.json where no name is given), and lets ffprobe and
# dav1d look at it, each where it is installed. What they agree with is the OBUs and the headers. The tile is read by AV1's
# own order of symbols, which a script of steps need not keep: then what dav1d shows is not what was written.
# The program is the one that `rt run` left in crates/av1_write/out, else `rt try` runs it without the proofs.
set -eu
if [ $# -lt 1 ] || [ ! -f "$1" ]; then
  echo "usage: look.sh UNIT.json [UNIT.obu]" >&2
  exit 2
fi
here=$(CDPATH= cd -- "$(dirname -- "$0")/.." && pwd)
unit=$(CDPATH= cd -- "$(dirname -- "$1")" && pwd)/$(basename -- "$1")
obu=${2:-${unit%.json}.obu}
said=$(mktemp)
trap 'rm -f "$said"' EXIT
if [ -x "$here/crates/av1_write/out/av1_write" ]; then
  "$here/crates/av1_write/out/av1_write" write < "$unit" > "$said"
else
  (cd "$here/crates/av1_write" && rt try -- write < "$unit" 2>/dev/null) > "$said"
fi
head -n 1 "$said" | python3 -c 'import sys; sys.stdout.buffer.write(bytes.fromhex(sys.stdin.read()))' > "$obu"
echo "$obu: $(wc -c < "$obu") bytes"
tail -n +2 "$said" | grep -E '^(tile|trial) ' || true
if command -v ffprobe > /dev/null; then
  echo "ffprobe:"
  ffprobe -hide_banner -loglevel error -f obu -show_entries stream=codec_name,profile,width,height,pix_fmt -of compact "$obu" || true
else
  echo "ffprobe: not installed, skipped"
fi
if command -v dav1d > /dev/null; then
  echo "dav1d:"
  dav1d -i "$obu" -o /dev/null 2>&1 || true
else
  echo "dav1d: not installed, skipped"
fi
