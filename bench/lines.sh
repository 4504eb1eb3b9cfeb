#!/usr/bin/env bash
# Times how fast lines are read: the proved program line_count beside `wc -l`, on one file, in turns, in one run.
# usage: bench/lines.sh [FILE]     with no FILE it makes one of 313,196 lines, as long as a day of 390 ticks
# ROUNDS=9   runs of each; the best one counts
set -eu
export LC_ALL=C
home=$(cd "$(dirname "$0")/.." && pwd)
ROUNDS=${ROUNDS:-9}
program=$home/crates/line_count/out/line_count
[ -x "$program" ] || (cd "$home/crates/line_count" && rt run >/dev/null)
dir=$(mktemp -d)
trap 'rm -rf "$dir"' EXIT
file=${1:-}
if [ -z "$file" ]; then
  file=$dir/feed
  awk 'BEGIN { for (i = 0; i < 313196; i++) { k = 1500 + 5 * (i % 200); p = 1 + (i % 9000)
    printf "Q,%02d:%02d,SPX   141017%s%08d,%d.%02d,%d.%02d\n", 8 + i / 48000, i / 800 % 60, i % 2 ? "P" : "C", k * 1000, p / 100, p % 100, p / 100, (p + 5) % 100 } }' > "$file"
fi
best() { # command..: the least time of the rounds, in microseconds
  local least=0 begin end took i
  for ((i = 0; i < ROUNDS; i++)); do
    begin=$EPOCHREALTIME; "$@" > "$dir/out"; end=$EPOCHREALTIME
    took=$((${end/./} - ${begin/./}))
    if [ "$least" -eq 0 ] || [ "$took" -lt "$least" ]; then least=$took; fi
  done
  echo "$least"
}
lines=$(wc -l < "$file")
[ "$("$program" "$file")" = "$lines" ] || { echo "line_count and wc -l disagree" >&2; exit 1; }
ours=$(best "$program" "$file")
theirs=$(best wc -l "$file")
awk -v n="$lines" -v a="$ours" -v b="$theirs" 'BEGIN {
  printf "%d lines: line_count %.2f ms (%.1f million lines a second), wc -l %.2f ms, ratio %.2f\n", n, a / 1000, n / a, b / 1000, a / b }'
