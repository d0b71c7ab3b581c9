#!/bin/sh
# examples.sh [PROGRAM]
#
# Runs each unit of examples/ and its folders and compares its status and what it prints with the file NAME.out beside it.
# PROGRAM is a built av1_write, by default the one that `rt run` left in crates/av1_write/out. Where there is none, `rt try` builds one
# without the proofs and runs it on all units, in about a minute; a kit whose `rt try` takes one input at a time takes that for
# each unit. Ends with status 1 where one differs.
set -u
here=$(CDPATH= cd -- "$(dirname -- "$0")/.." && pwd)
program=${1:-$here/crates/av1_write/out/av1_write}
room=$(mktemp -d)
trap 'rm -rf "$room"' EXIT
mkdir "$room/units" "$room/said"

for wanted in "$here"/examples/*.out "$here"/examples/*/*.out; do
  unit=${wanted%.out}.json
  cp "$unit" "$room/units/"
done

if [ -x "$program" ]; then
  for unit in "$room"/units/*; do
    "$program" write < "$unit" > "$room/out" 2> "$room/err"
    { echo "status $?"; cat "$room/out" "$room/err"; } > "$room/said/$(basename "$unit")"
  done
else
  # `== NAME`, what the program printed, and `case=NAME run=ended status=S ..`, for each unit
  (cd "$here/crates/av1_write" && rt try --cases "$room/units" -- write) > "$room/all" 2>&1
  awk -v room="$room/said/" '
    /^== / { name = substr($0, 4); text = ""; next }
    /^case=/ && name != "" {
      match($0, /status=[0-9]+/)
      printf "status %s\n%s", substr($0, RSTART + 7, RLENGTH - 7), text > (room name)
      close(room name)
      name = ""
      next
    }
    { text = text $0 "\n" }' "$room/all"
fi

# one unit at a time: beside the program's own line, rt says how the run ended
if [ ! -x "$program" ] && ! grep -q '^case=' "$room/all"; then
  for unit in "$room"/units/*; do
    (cd "$here/crates/av1_write" && rt try -- write) < "$unit" > "$room/out" 2> "$room/err"
    {
      sed -n 's/^run=ended status=\([0-9]*\).*/status \1/p' "$room/err"
      cat "$room/out"
      grep -E '^(usage|source fault|input too large|bad |refused |too long|sink fault|out of memory)' "$room/err"
    } > "$room/said/$(basename "$unit")"
  done
fi

bad=0
count=0
for wanted in "$here"/examples/*.out "$here"/examples/*/*.out; do
  name=$(basename "${wanted%.out}.json")
  count=$((count + 1))
  if ! cmp -s "$wanted" "$room/said/$name"; then
    bad=$((bad + 1))
    echo "examples: $name gave another answer:"
    diff "$wanted" "$room/said/$name"
  fi
done
echo "examples: $((count - bad)) of $count as told"
[ "$bad" = 0 ] && [ "$count" -gt 0 ]
