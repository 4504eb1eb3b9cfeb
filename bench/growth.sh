#!/usr/bin/env bash
# Shows how the cost of a run grows: four points each with more ticks, lines a tick, series and certificates.
# usage: bench/growth.sh
# PROGRAM=..   the program that is timed; without it the proved one, which is built first where it is missing
# ROUNDS=5     runs of each; the one with the least processor time counts
set -eu
export LC_ALL=C
home=$(cd "$(dirname "$0")/.." && pwd)
program=${PROGRAM:-}
if [ -z "$program" ]; then
  "$home/vixcert" make 0 1 >/dev/null
  program=$home/crates/vixcert/out/vixcert
fi
program=$(readlink -e -- "$program") || { echo "there is no such program" >&2; exit 2; }
ROUNDS=${ROUNDS:-5}
dir=$(mktemp -d)
trap 'rm -rf "$dir"' EXIT
cd "$dir"

least() { # WORDS..: the least processor time of the rounds, user and system, in milliseconds
  local TIMEFORMAT='%3U %3S' round
  for ((round = 0; round < ROUNDS; round++)); do { time "$program" "$@" >out 2>err; } 2>>spent.all; done
  awk '{ ms = ($1 + $2) * 1000; if (NR == 1 || ms < low) low = ms } END { printf "%.0f", low }' spent.all
  rm -f spent.all
}
repeat_quotes() { # TIMES: the feed of standard input with the quotes of each tick so many times over
  awk -F, -v times="$1" '$1 == "Q" { quotes = quotes $0 "\n"; n++; next } $1 == "END" { print "END," lines - 1; next }
    { for (i = 0; i < times && n > 0; i++) { printf "%s", quotes; lines += n } quotes = ""; n = 0; print; lines++ }'
}
with_strikes() { # COUNT: 20 ticks over two terms that list so many strikes each, a point apart
  awk -v count="$1" 'function put(text) { print text; lines++ }
    BEGIN { print "H,1,2014-09-22"; put("E,SPX,2014-10-17"); put("E,SPXW,2014-10-24"); put("R,SPX,2014-10-17,0.03"); put("R,SPXW,2014-10-24,0.03")
      root[0] = "SPX   141017"; root[1] = "SPXW  141024"; first = 2000 - count / 2
      for (e = 0; e < 2; e++) for (k = first; k < first + count; k++) {
        put(sprintf("S,%sC%08d", root[e], k * 1000)); put(sprintf("S,%sP%08d", root[e], k * 1000)) }
      for (t = 0; t < 20; t++) { minute = sprintf("08:%02d", 30 + t)
        for (e = 0; e < 2; e++) for (k = first; k < first + count; k++) { far = k > 2000 ? k - 2000 : 2000 - k; worth = 3 + (t + k) % 7 / 100
          put(sprintf("Q,%s,%sC%08d,%.2f,%.2f", minute, root[e], k * 1000, worth + (k < 2000) * far, worth + (k < 2000) * far + 0.05))
          put(sprintf("Q,%s,%sP%08d,%.2f,%.2f", minute, root[e], k * 1000, worth + (k > 2000) * far, worth + (k > 2000) * far + 0.05)) }
        put("V," minute) }
      print "END," lines }'
}
report() { # WHAT FEED: the times of replay, and of check over the certificates that it gave
  local replayed checked
  replayed=$(least replay "$2" certificates)
  checked=$(least check "$2" certificates)
  printf '%-20s %9d lines  replay %6s ms  check %6s ms  %s\n' "$1" "$(wc -l <"$2")" "$replayed" "$checked" "$(tail -n 1 out)"
}

for ticks in 48 97 195 390; do
  "$program" make 0 $ticks >feed
  printf '%-20s %9d lines  make   %6s ms\n' "$ticks ticks" "$(wc -l <feed)" "$(least make 0 $ticks)"
  report "$ticks ticks" feed
done
"$program" make 0 20 >sample
for times in 2 4 8 16; do repeat_quotes $times <sample >feed; report "20 ticks, $times times" feed; done
for strikes in 200 400 800 1600; do with_strikes $strikes >feed; report "$((4 * strikes)) series" feed; done
"$program" make 0 390 >feed
"$program" replay feed all >out
for count in 48 97 195 390; do
  head -n $count all >certificates
  printf '%-20s %9d bytes  check  %6s ms\n' "$count certificates" "$(wc -c <certificates)" "$(least check feed certificates)"
done
