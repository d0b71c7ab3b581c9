#!/bin/sh
# play.sh UNIT.json [FOLDER]
#
# Writes a unit as bytes, keeps them as a file of OBUs that players take (NAME.obu in FOLDER, by default a fresh folder in /tmp),
# lets dav1d, aomdec and ffmpeg decode it, each where it is installed, and says what they saw: the size, whether all show the same
# samples, and what ffmpeg warns of. What dav1d or else aomdec shows becomes NAME.png beside it.
#
# The program is the av1_write that `rt run` left in crates/av1_write/out; where there is none, `rt try` runs it without the proofs.
# With ORACLE=PROGRAM in the environment the bytes are those that `PROGRAM write` answers. Ends with status 1 where the unit is
# not written, where a decoder refuses it, or where two show different samples.
set -u
if [ $# -lt 1 ] || [ ! -f "$1" ]; then
  echo "usage: play.sh UNIT.json [FOLDER]" >&2
  exit 2
fi
here=$(CDPATH= cd -- "$(dirname -- "$0")/.." && pwd)
unit=$(CDPATH= cd -- "$(dirname -- "$1")" && pwd)/$(basename -- "$1")
name=$(basename -- "$1" .json)
room=${2:-$(mktemp -d)}
mkdir -p "$room"
room=$(CDPATH= cd -- "$room" && pwd)
obu=$room/$name.obu
said=$room/$name.said

hex() {
  python3 -c 'import sys; sys.stdout.buffer.write(bytes.fromhex(sys.stdin.readline()))'
}

if [ -n "${ORACLE:-}" ]; then
  "$ORACLE" write < "$unit" > "$said" 2> "$said.err"
  status=$?
  hex < "$said" > "$obu"
  tail -n +2 "$said" >> "$said.err"
elif [ -x "$here/crates/av1_write/out/av1_write" ]; then
  "$here/crates/av1_write/out/av1_write" raw < "$unit" > "$obu" 2> "$said.err"
  status=$?
else
  (cd "$here/crates/av1_write" && rt try -- raw < "$unit") > "$obu" 2> "$said.err"
  # beside the program's own lines, rt writes how the run ended
  status=$(sed -n 's/^run=ended status=\([0-9]*\).*/\1/p' "$said.err")
fi
if [ "$status" != 0 ]; then
  echo "play: the unit is not written, status $status"
  cat "$said.err"
  exit 1
fi
echo "$obu: $(wc -c < "$obu") bytes"
grep -E '^tile ' "$said.err"
rm -f "$said" "$said.err"

bad=0
shown=
# saw PROGRAM: what it decoded, in $room/$name.PROGRAM.yuv, beside what the first one did
saw() {
  if [ -z "$shown" ]; then
    shown=$1
    echo "$1: shows a picture of $(wc -c < "$room/$name.$1.yuv") bytes of samples"
  elif cmp -s "$room/$name.$shown.yuv" "$room/$name.$1.yuv"; then
    echo "$1: shows the same samples as $shown"
  else
    echo "$1: shows other samples than $shown"
    bad=1
  fi
}

refused() {
  echo "$1: refuses it"
  cat "$room/$name.$1.err"
  bad=1
}

if command -v dav1d > /dev/null; then
  if dav1d -q -i "$obu" -o "$room/$name.y4m" 2> "$room/$name.dav1d.err" && dav1d -q -i "$obu" -o "$room/$name.dav1d.yuv"; then
    saw dav1d
  else
    refused dav1d
  fi
  [ ! -s "$room/$name.dav1d.err" ] || { echo "dav1d says:"; cat "$room/$name.dav1d.err"; }
else
  echo "dav1d: not installed, skipped"
fi
if command -v aomdec > /dev/null; then
  if aomdec --rawvideo -o "$room/$name.aomdec.yuv" "$obu" > "$room/$name.aomdec.err" 2>&1; then
    saw aomdec
    [ -f "$room/$name.y4m" ] || aomdec -o "$room/$name.y4m" "$obu" > /dev/null 2>&1
  else
    refused aomdec
  fi
else
  echo "aomdec: not installed, skipped"
fi
if command -v ffmpeg > /dev/null; then
  if ffmpeg -v warning -y -f obu -i "$obu" -f rawvideo "$room/$name.ffmpeg.yuv" 2> "$room/$name.ffmpeg.err"; then
    saw ffmpeg
  else
    refused ffmpeg
  fi
  [ ! -s "$room/$name.ffmpeg.err" ] || { echo "ffmpeg says:"; cat "$room/$name.ffmpeg.err"; }
  ffprobe -v error -f obu -show_entries stream=codec_name,profile,width,height,pix_fmt,color_range -of compact "$obu"
else
  echo "ffmpeg: not installed, skipped"
fi
rm -f "$room/$name".*.yuv "$room/$name".*.err
if [ -f "$room/$name.y4m" ]; then
  range=$(python3 -c 'import json, sys; print("--full" if json.load(open(sys.argv[1])).get("seq", {}).get("pixel_range") == 1 else "")' "$unit")
  # shellcheck disable=SC2086
  python3 "$here/scripts/png.py" "$room/$name.y4m" "$room/$name.png" $range && echo "the picture: $room/$name.png"
fi
[ -n "$shown" ] || echo "play: no decoder is installed, nothing was seen"
exit $bad
