#!/bin/sh
# bench.sh BUILD [N [SEED [RUNS]]]
#
# What the range coder takes for each coded symbol, of this repository and of rav1e's own code: instructions, as callgrind
# counts them, and nanoseconds, the least of RUNS runs of 30 N symbols; and the ratios of both. BUILD is what
# `yardstick/build.sh` made: its `ec_bench` does the same work. N is 100000, SEED 7 and RUNS 15 where they are not given.
# Wants valgrind, GNU date, and `av1_bench` built by `rt run` in its folder.
#
# The making of the symbols is measured apart and taken off. Trials code each symbol twice, and what they take is that of
# each coding. Their replay is the recording of all trials and one replay.
set -eu
if [ $# -lt 1 ] || [ ! -x "$1/bin/ec_bench" ]; then
  echo "usage: bench.sh BUILD [N [SEED [RUNS]]], where BUILD was made by yardstick/build.sh" >&2
  exit 2
fi
theirs=$1/bin/ec_bench
n=${2:-100000}
seed=${3:-7}
runs=${4:-15}
many=$((30 * n))
ours=$(cd "$(dirname "$0")/.." && pwd)/crates/av1_bench/out/av1_bench

# The answers have to be equal before a count says anything.
trap 'rm -f /tmp/bench.$$.ours /tmp/bench.$$.theirs' EXIT
"$ours" "$n" "$seed" > /tmp/bench.$$.ours
"$theirs" "$n" "$seed" 1 | grep -v '^time' > /tmp/bench.$$.theirs
if ! cmp -s /tmp/bench.$$.ours /tmp/bench.$$.theirs; then
  echo "bench.sh: the two programs answer differently" >&2
  diff /tmp/bench.$$.ours /tmp/bench.$$.theirs >&2 || true
  exit 1
fi

# instructions COMMAND..
instructions() {
  valgrind --tool=callgrind --callgrind-out-file=/dev/null "$@" 2>&1 | awk '/Collected/ { print $NF }'
}

# nanoseconds WORK/WRITER: those of ours and of theirs, run in turn, the least of all runs
nanoseconds() {
  least_ours= least_theirs=
  for _ in $(seq "$runs"); do
    from=$(date +%s%N)
    "$ours" "$many" "$seed" "$1" > /dev/null
    to=$(date +%s%N)
    "$theirs" "$many" "$seed" 1 "$1"
    end=$(date +%s%N)
    a=$((to - from)) b=$((end - to))
    if [ -z "$least_ours" ] || [ "$a" -lt "$least_ours" ]; then least_ours=$a; fi
    if [ -z "$least_theirs" ] || [ "$b" -lt "$least_theirs" ]; then least_theirs=$b; fi
  done
  echo "$least_ours $least_theirs"
}

ours_none=$(instructions "$ours" "$n" "$seed" none/counter)
theirs_none=$(instructions "$theirs" "$n" "$seed" 1 none/counter)
set -- $(nanoseconds none/counter)
ours_making=$1 theirs_making=$2
printf '%-19s %29s   %29s\n' '' instructions nanoseconds
printf '%-19s %9s %9s %9s   %9s %9s %9s\n' work ours theirs ratio ours theirs ratio
for work in plain adaptive trials; do
  if [ "$work" = trials ]; then times=2; else times=1; fi
  for writer in encoder counter recorder replay; do
    a=$(instructions "$ours" "$n" "$seed" "$work/$writer")
    b=$(instructions "$theirs" "$n" "$seed" 1 "$work/$writer")
    set -- $(nanoseconds "$work/$writer")
    awk -v w="$work $writer" -v n=$((n * times)) -v m=$((many * times)) \
      -v a=$((a - ours_none)) -v b=$((b - theirs_none)) -v s=$(($1 - ours_making)) -v t=$(($2 - theirs_making)) \
      'BEGIN { printf "%-19s %9.1f %9.1f %9.2f   %9.2f %9.2f %9.2f\n", w, a / n, b / n, a / b, s / m, t / m, s / t }'
  done
done
