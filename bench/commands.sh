#!/usr/bin/env bash
# Times each command beside another program that takes the same words, and prints a table of the ratios; then the libraries
# that take lines and certificates apart, each alone over the same bytes.
# usage: bench/commands.sh PEER
# PROGRAM=..   the program that is timed; without it the proved one, which is built first where it is missing
# ROUNDS=5     runs of each, in turns; the one with the least processor time counts
# TICKS=390    the ticks of the sample feed, 1 to 390
set -eu
export LC_ALL=C
home=$(cd "$(dirname "$0")/.." && pwd)
[ $# -eq 1 ] || { echo "usage: bench/commands.sh PEER" >&2; exit 2; }
peer=$(readlink -e -- "$1") || { echo "there is no $1" >&2; exit 2; }
program=${PROGRAM:-}
if [ -z "$program" ]; then
  "$home/vixcert" make 0 1 >/dev/null
  program=$home/crates/vixcert/out/vixcert
fi
program=$(readlink -e -- "$program") || { echo "there is no $program" >&2; exit 2; }
ROUNDS=${ROUNDS:-5} TICKS=${TICKS:-390}
dir=$(mktemp -d)
trap 'rm -rf "$dir"' EXIT
cd "$dir"

# What is read: a sample feed, the certificates that the program itself gives over it, and many positions.
"$program" make 0 "$TICKS" >feed
"$program" replay feed certificates >figures
: >none
awk 'BEGIN { for (i = 0; i < 100000; i++) printf "VX,%d,%d.%04d\n", i % 2001 - 1000, 10 + i % 40, i % 10000 }' >positions

spend() { # NAME COMMAND..: the microseconds of processor time, user and system, that a run takes; its output goes to NAME.out
  local name=$1 TIMEFORMAT='%3U %3S' status=0; shift
  { time "$@" >"$name.out" 2>"$name.err" || status=$?; } 2>spent
  echo "$status" >"$name.status"
  awk '{ print ($1 + $2) * 1000000 }' spent
}
least() { # NAME MICROSECONDS: keeps the least of them in the file NAME.least
  if [ ! -e "$1.least" ] || [ "$2" -lt "$(cat "$1.least")" ]; then echo "$2" >"$1.least"; fi
}
compare() { # LABEL WORDS..: one line of the table; the word OUT stands for a file that is written
  local label=$1 round said; shift
  rm -f ./*.least
  for ((round = 0; round < ROUNDS; round++)); do
    least ours "$(spend ours "$program" "${@/OUT/ours.file}")"
    least theirs "$(spend theirs "$peer" "${@/OUT/theirs.file}")"
  done
  if cmp -s ours.out theirs.out; then said=same; else said=differs; fi
  if [ "$(cat theirs.status)" -eq 2 ]; then said="the peer answers usage"; fi
  if [ "$(cat ours.status)" -eq 2 ]; then said="answers usage"; fi
  awk -v label="$label" -v ours="$(cat ours.least)" -v theirs="$(cat theirs.least)" -v said="$said" 'BEGIN {
    ratio = theirs > 0 && said !~ /usage/ ? sprintf("%.2f", ours / theirs) : "-"
    printf "%-28s %9.1f %9.1f %7s  %s\n", label, ours / 1000, theirs / 1000, ratio, said }'
}

echo "$(wc -l <feed) lines, $TICKS ticks, $(wc -l <certificates) certificates of $(wc -c <certificates) bytes, $(wc -l <positions) positions"
echo "processor time in milliseconds, the least of $ROUNDS runs; a run below 5 is mostly the program's start"
printf '%-28s %9s %9s %7s  %s\n' command program peer ratio output
compare "make" make 0 "$TICKS"
compare "replay" replay feed OUT
compare "check" check feed certificates
compare "check, no certificate" check feed none
compare "settle" settle "$home/examples/feed-d.txt" positions OUT
compare "drill" drill 0 "$TICKS"

library_cost=$home/crates/library_cost/out/library_cost
[ -x "$library_cost" ] || (cd "$home/crates/library_cost" && rt run -- csv feed.txt >/dev/null)
alone() { # LIBRARY FILE: one line of the table, of the library alone
  local round
  rm -f ./*.least
  for ((round = 0; round < ROUNDS; round++)); do least alone "$(spend alone "$library_cost" "$@")"; done
  awk -v label="$1 alone, $2" -v took="$(cat alone.least)" 'BEGIN { printf "%-28s %9.1f\n", label, took / 1000 }'
}
alone csv feed
alone csv positions
alone serde_json certificates
