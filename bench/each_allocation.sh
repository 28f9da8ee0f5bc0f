#!/usr/bin/env bash
# Each allocation of a run refused in turn. Every such run ends with status 7 (no memory), having written a front of what the
# run without a refusal writes, or it ends as that one does; never in a fault. Takes the names of examples, six of them where
# none is given. Wants a C compiler: a small library stands in front of the C library's allocations and refuses one of them.
set -eu
. "$(dirname "$0")/common.sh"

cat >"$work/refuse.c" <<'C'
#define _GNU_SOURCE
#include <dlfcn.h>
#include <fcntl.h>
#include <stdlib.h>
#include <unistd.h>

/* Counts the allocations, and refuses that of the number in REFUSE, from 1 on. The file named in MET tells that it came. */
static long count;

static int refuse(void) {
    const char *number = getenv("REFUSE");
    if (number == NULL || ++count != atol(number)) return 0;
    close(open(getenv("MET"), O_CREAT | O_WRONLY, 0600));
    return 1;
}

#define NEXT(name) ((name##_type)dlsym(RTLD_NEXT, #name))
typedef void *(*malloc_type)(size_t);
typedef void *(*realloc_type)(void *, size_t);

void *malloc(size_t size) { return refuse() ? NULL : NEXT(malloc)(size); }
void *realloc(void *old, size_t size) { return refuse() ? NULL : NEXT(realloc)(old, size); }
C
cc -shared -fPIC -O2 -o "$work/refuse.so" "$work/refuse.c" -ldl

bad=0
complain() {
  echo "$name, allocation $n: $1"
  bad=1
}

[ "$#" -gt 0 ] || set -- cut-header domains handover-in-mid-message device-hand-shake resumed empty-store
for name in "$@"; do
  input=$here/examples/$name.xs program=$xslu word=run
  [ -e "$input" ] || input=$here/examples/$name.hex program=$xsstream word=hex
  "$program" "$word" <"$input" >"$work/whole"
  ended=0
  for n in $(seq 1 100000); do
    rm -f "$work/met"
    status=0
    LD_PRELOAD="$work/refuse.so" REFUSE="$n" MET="$work/met" "$program" "$word" <"$input" >"$work/out" 2>/dev/null || status=$?
    [ -e "$work/met" ] || break
    if [ "$status" -eq 7 ]; then
      ended=$((ended + 1))
      cmp -s -n "$(stat -c %s "$work/out")" "$work/out" "$work/whole" || complain "wrote something else"
    elif [ "$status" -ne 0 ] || ! cmp -s "$work/out" "$work/whole"; then
      complain "ended with status $status"
    fi
  done
  echo "$name: $((n - 1)) allocations, each refused in turn: $ended runs ended with status 7, the others as without it"
done
exit "$bad"
