#!/usr/bin/env bash
# Tries the most lines that a feed, certificates and positions may have, and one line more. They come through pipes, so
# that no file of their size is made.
# usage: bench/limits.sh
# PROGRAM=..   the program that is tried; without it the proved one, which is built first where it is missing
set -u
export LC_ALL=C
home=$(cd "$(dirname "$0")/.." && pwd)
program=${PROGRAM:-}
if [ -z "$program" ]; then
  "$home/vixcert" make 0 1 >/dev/null || exit 1
  program=$home/crates/vixcert/out/vixcert
fi
program=$(readlink -e -- "$program") || { echo "there is no such program" >&2; exit 2; }
dir=$(mktemp -d) || exit 1
trap 'rm -rf "$dir"' EXIT
failed=0

make_feed() { printf 'H,1,2014-09-17\n'; yes V,08:30 | head -n $(($1 - 2)); printf 'END,%d\n' $(($1 - 2)); } # LINES
make_certificates() { yes '{}' | head -n "$1"; } # LINES
make_positions() { yes VX,1,10 | head -n "$1"; } # LINES

expect() { # STATUS TEXT WORDS..: how a run ends, and the last line that it sends with what it then tells
  local status=$1 text=$2 begin=$EPOCHSECONDS got; shift 2
  "$program" "$@" 2>"$dir/err" | tail -n 1 >"$dir/last"
  got="${PIPESTATUS[0]} $(cat "$dir/last" "$dir/err")"
  if [ "$got" = "$status $text" ]; then got="as it should: $text"; else got="WRONG: '$got', not '$status $text'"; failed=1; fi
  printf '%-6s %3d s  %s\n' "$1" $((EPOCHSECONDS - begin)) "${got//$'\n'/ | }"
}

feed=$home/examples/feed-a.txt
opening=$home/examples/feed-d.txt
expect 0 END,0,0,0 check <(make_feed 10000000) /dev/null
expect 3 "vixcert: feed line 10000001: too-many" check <(make_feed 10000001) /dev/null
expect 1 END,1000000,0,1000000 check "$feed" <(make_certificates 1000000)
expect 9 $'NO,1000000,field-1\nvixcert: certificate line 1000001: too-many' check "$feed" <(make_certificates 1000001)
expect 0 END,1000000 settle "$opening" <(make_positions 1000000) "$dir/certs"
expect 8 $'POS,1000000,VX,1,10.0000,10660.00\nvixcert: position line 1000001: too-many' settle "$opening" <(make_positions 1000001) "$dir/certs"
exit "$failed"
