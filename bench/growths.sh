#!/usr/bin/env bash
# Refuses memory to the program, one growth a run: the first, the second, .. and so on to the last that the command asks
# for, and says how far it went. In each such run the command must say that there is no memory, and must have sent a first
# part of what it sends else: whole lines, and the certificate of each line of a figure. A growth that is only asked for
# to have room at once may be done without: then the command must do all that it does else.
# A small library is put before the C library's malloc and realloc; it is compiled here and is no part of the program.
# usage: bench/growths.sh [EVERY]     every growth without it; with 10 each tenth
# PROGRAM=..   the program that is tried; without it the proved one, which is built first where it is missing
# TICKS=1      ticks of the sample feed
set -u
export LC_ALL=C
home=$(cd "$(dirname "$0")/.." && pwd)
every=${1:-1}
program=${PROGRAM:-}
if [ -z "$program" ]; then
  "$home/vixcert" make 0 1 >/dev/null || exit 1
  program=$home/crates/vixcert/out/vixcert
fi
program=$(readlink -e -- "$program") || { echo "there is no such program" >&2; exit 2; }
dir=$(mktemp -d) || exit 1
trap 'rm -rf "$dir"' EXIT
cd "$dir" || exit 1

cc -O2 -shared -fPIC -o refuse.so -x c - <<'C' || { echo "a C compiler is needed (the command cc)" >&2; exit 2; }
#include <errno.h>
#include <stdio.h>
#include <stdlib.h>
void *__libc_malloc(size_t size);
void *__libc_realloc(void *place, size_t size);
static long asked, refused;
__attribute__((constructor)) static void begin(void) {
  const char *number = getenv("REFUSED_GROWTH");
  refused = number ? atol(number) : 0;
}
__attribute__((destructor)) static void end(void) {
  const char *name = getenv("GROWTHS_FILE");
  long count = asked; /* before the file asks for memory too */
  FILE *file = name ? fopen(name, "w") : NULL;
  if (file) { fprintf(file, "%ld\n", count); fclose(file); }
}
static int is_refused(void) {
  if (++asked != refused) return 0;
  errno = ENOMEM;
  return 1;
}
void *malloc(size_t size) { return is_refused() ? NULL : __libc_malloc(size); }
void *realloc(void *place, size_t size) { return is_refused() ? NULL : __libc_realloc(place, size); }
C

"$program" make 0 "${TICKS:-1}" >feed || exit 1
"$program" replay feed written >/dev/null || exit 1
cp "$home/examples/feed-d.txt" opening
cp "$home/examples/positions-d.txt" positions
failed=0
wrong() { printf '  growth %s of %s: WRONG: %s\n' "$1" "$words" "$2"; failed=1; }

is_first_part() { cmp -s -n "$(stat -c %s "$1")" "$1" "$2"; } # FILE WHOLE

# the bytes of the certificates whose lines were begun: of figures, or of an opening
certificates_begun() { head -n "$(grep -c -e '^FIG' -e '^SOQ,..:..,[0-9]' out)" certs.all | wc -c; }

# Refuses the growth of this number, and tests how the run ends
refuse_one() { # NUMBER WORDS..
  local number=$1 status; shift
  : >certs
  LD_PRELOAD=./refuse.so REFUSED_GROWTH=$number "$program" "$@" >out 2>err; status=$?
  if [ "$status" -eq 0 ]; then
    cmp -s out out.all && cmp -s certs certs.all || wrong "$number" "it ends well, and did not send all"
    spared=$((spared + 1))
    return
  fi
  [ "$status" -eq 7 ] && [ "$(cat err)" = "$no_memory" ] || wrong "$number" "status $status, '$(cat err)'"
  is_first_part out out.all || wrong "$number" "the output is no first part"
  is_first_part certs certs.all || wrong "$number" "the certificates are no first part"
  if [ -s out ]; then
    [ -z "$(tail -c 1 out)" ] || wrong "$number" "a line of the output is cut off"
    [ "$(stat -c %s certs)" -ge "$(certificates_begun)" ] || wrong "$number" "a line has no whole certificate"
  fi
}

# Refuses each growth of a command in turn
refuse_each() { # WORDS..
  local growths number begun=$EPOCHSECONDS tried=0 spared=0
  words=$*
  : >certs
  LD_PRELOAD=./refuse.so GROWTHS_FILE=growths "$program" "$@" >out.all || wrong none "it ends with status $?"
  cp certs certs.all
  growths=$(cat growths)
  for ((number = 1; number <= growths; number += every)); do refuse_one "$number" "$@"; tried=$((tried + 1)); done
  printf '%-36s %6d growths, %6d refused in turn, %d of them done without, %4d s\n' \
    "$words" "$growths" "$tried" "$spared" $((EPOCHSECONDS - begun))
}

no_memory='vixcert: no memory'
refuse_each replay feed certs
refuse_each check feed written
refuse_each settle opening positions certs
refuse_each make 0 1
refuse_each drill 0 1
exit "$failed"
