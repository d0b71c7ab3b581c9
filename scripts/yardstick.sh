#!/bin/sh
# yardstick.sh [COUNT [FIRST]]
#
# Real decoders as a yardstick: COUNT random key frames (200 where it is not said) with AV1's own distributions and scans, from the
# seed FIRST (1) on, are written, decoded by dav1d and by aomdec, which must show the same samples and say nothing, and their
# headers are read by ffmpeg (`trace_headers`) and compared field by field with the units. aomdec refuses a tile that does not end
# exactly where its symbols do. Then the picture of examples/ is made and written, and dav1d must show what scripts/picture.py
# computed. docs/YARDSTICK.md tells what this showed. It is no part of the gate.
#
# The program is the av1_write that `rt run` left in crates/av1_write/out. With ORACLE=PROGRAM in the environment the bytes are
# those that `PROGRAM write` answers. What a missing tool would show is skipped, with a word. Ends with status 1 where something
# differs, and keeps the frames that do.
set -u
here=$(CDPATH= cd -- "$(dirname -- "$0")/.." && pwd)
count=${1:-200}
first=${2:-1}
if [ -n "${ORACLE:-}" ]; then
  set -- write "$ORACLE" write
elif [ -x "$here/crates/av1_write/out/av1_write" ]; then
  set -- raw "$here/crates/av1_write/out/av1_write" raw
else
  echo "yardstick: skipped, there is no crates/av1_write/out/av1_write (rt run builds it), and no ORACLE is said"
  exit 0
fi
if ! command -v python3 > /dev/null; then
  echo "yardstick: skipped, python3 is not installed"
  exit 0
fi
tools=0
for tool in dav1d aomdec ffmpeg; do
  if command -v "$tool" > /dev/null; then
    tools=$((tools + 1))
  else
    echo "yardstick: $tool is not installed; what it would say is skipped"
  fi
done
if [ "$tools" = 0 ]; then
  echo "yardstick: skipped, no decoder is installed (Debian: dav1d, aom-tools, ffmpeg)"
  exit 0
fi
room=$(mktemp -d)
bad=0
python3 "$here/scripts/yardstick.py" "$count" "$first" "$room" "$@" || bad=1
if command -v dav1d > /dev/null; then
  python3 "$here/scripts/picture.py" --y4m "$room/wanted.y4m" > "$room/picture.json"
  word=$1
  shift
  "$@" < "$room/picture.json" > "$room/picture.said" 2> /dev/null || bad=1
  if [ "$word" = raw ]; then
    mv "$room/picture.said" "$room/picture.obu"
  else
    python3 -c 'import sys; sys.stdout.buffer.write(bytes.fromhex(sys.stdin.readline()))' < "$room/picture.said" > "$room/picture.obu"
  fi
  dav1d -q -i "$room/picture.obu" -o "$room/shown.yuv"
  # a Y4M file is two lines and then the samples
  if tail -n +3 "$room/wanted.y4m" | cmp -s - "$room/shown.yuv"; then
    echo "picture: dav1d shows the very samples that scripts/picture.py computed"
  else
    echo "picture: dav1d shows other samples than scripts/picture.py computed"
    bad=1
  fi
  cmp -s "$room/picture.json" "$here/examples/picture/picture.json" || { echo "picture: examples/picture/picture.json is another one"; bad=1; }
  [ "$bad" = 1 ] || rm -f "$room"/picture.* "$room/wanted.y4m" "$room/shown.yuv"
fi
if [ "$bad" = 1 ]; then
  echo "yardstick: what differs is in $room"
else
  rm -rf "$room"
fi
exit $bad
