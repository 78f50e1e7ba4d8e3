#!/usr/bin/env bash
# Refuses each request for memory in turn, for each command on the worked instance, until a run makes no more
# requests, and counts the statuses with which the built program ended. They may be 6, and that of the run without a refusal
# (0), and no other; what was reported may be nothing or the whole report; and each output has its bytes from before, or is whole.
# (`rt try --fail-alloc N` does the same for one
# request before any proof, in some 20 seconds each.) Build first: rt run in crates/hrt. It needs gcc.
set -eu
cd "$(dirname "$0")/.."
program=$PWD/crates/hrt/out/hrt
work=$(mktemp -d)
trap 'rm -rf "$work"' EXIT
gcc -shared -fPIC -O1 -o "$work/refuse.so" -x c - -ldl <<'C'
#define _GNU_SOURCE
#include <dlfcn.h>
#include <errno.h>
#include <stdlib.h>
#include <unistd.h>
static long left = -1;
static int refuse(void) {
    if (left < 0) { const char *n = getenv("REFUSE"); left = n ? atol(n) : 0; }
    if (left > 0 && --left == 0) { errno = ENOMEM; write(9, "x", 1); return 1; }
    return 0;
}
#define NEXT(name) __typeof__(&name) next = (__typeof__(&name))dlsym(RTLD_NEXT, #name)
void *malloc(size_t n) { NEXT(malloc); return refuse() ? 0 : next(n); }
void *calloc(size_t k, size_t n) { NEXT(calloc); return refuse() ? 0 : next(k, n); }
void *realloc(void *p, size_t n) { NEXT(realloc); return refuse() ? 0 : next(p, n); }
void *aligned_alloc(size_t a, size_t n) { NEXT(aligned_alloc); return refuse() ? 0 : next(a, n); }
int posix_memalign(void **p, size_t a, size_t n) { NEXT(posix_memalign); return refuse() ? ENOMEM : next(p, a, n); }
C
cp crates/hrt/data/a.hrt "$work/i"
printf 'pair a x\n' > "$work/q"
printf '%s\n' 'pseudo-Boolean proof version 2.0' 'f 7' 'pol 1 2 +' 'soli ~x1 x2 x3' 'output NONE' \
  'conclusion BOUNDS -2 -2' 'end pseudo-Boolean proof' > "$work/p"
bad=0
for words in "solve $work/i $work/n $work/o" "audit $work/i $work/q" "model $work/i $work/m" "verify $work/i $work/p" \
  "check $work/m $work/p" "bound $work/i $work/n $work/o" "quick $work/i $work/n $work/o"; do
  # shellcheck disable=SC2086
  "$program" $words > "$work/whole"
  for file in m n o; do [ ! -e "$work/$file" ] || cp "$work/$file" "$work/whole_$file"; done
  n=0
  : > "$work/statuses"
  while :; do
    n=$((n + 1))
    : > "$work/refused"
    # what the command writes is as before; `check` reads the model that `model` wrote
    case ${words%% *} in
      model) echo before > "$work/m" ;;
      bound | quick | solve) echo before > "$work/n"; echo before > "$work/o" ;;
    esac
    status=0
    # shellcheck disable=SC2086
    LD_PRELOAD="$work/refuse.so" REFUSE=$n "$program" $words > "$work/out" 9> "$work/refused" || status=$?
    [ -s "$work/refused" ] || break
    echo "$status" >> "$work/statuses"
    case $status in
      0) cmp -s "$work/out" "$work/whole" || { bad=1; echo "request $n: another report"; } ;;
      6) [ ! -s "$work/out" ] || { bad=1; echo "request $n: status 6 with a report"; } ;;
      *) bad=1; echo "request $n: status $status" ;;
    esac
    for file in m n o; do
      [ -e "$work/$file" ] || continue
      if ! cmp -s "$work/$file" "$work/whole_$file"; then
        [ "$status" = 6 ] && [ "$(cat "$work/$file")" = before ] || { bad=1; echo "request $n: an output in part"; }
      fi
    done
    ! ls "$work" | grep -q '^hrt-unfinished-' || { bad=1; echo "request $n: an unfinished file is left"; }
  done
  echo "${words%% *}: $((n - 1)) requests refused in turn: $(sort "$work/statuses" | uniq -c | awk '{printf "status %s %s times; ", $2, $1}')"
done
exit $bad
