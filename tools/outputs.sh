#!/usr/bin/env bash
# What the built program leaves of files that its outputs name: a file is replaced whole or stays as it was. Tried are a second
# output whose folder is missing, a full disk (a small tmpfs where one may be mounted, else a limit on the size of files), a kill
# while outputs are begun, and one file under two names. (tools/fail_alloc.sh refuses each request for memory in turn.)
# Build first: rt run in crates/hrt; or name a program as the first argument.
set -eu
cd "$(dirname "$0")/.."
program=${1:-$PWD/crates/hrt/out/hrt}
work=$(mktemp -d)
mounted=
trap '[ -z "$mounted" ] || umount "$work/full"; rm -rf "$work"' EXIT
cp crates/hrt/data/a.hrt "$work/i"
"$program" bound "$work/i" "$work/whole_m" "$work/whole_p" > /dev/null
bad=0

fail() { echo "outputs: $1"; bad=1; }

# The files m and p of a folder, as they are before a run.
prepare() { echo "model before" > "$1/m"; echo "proof before" > "$1/p"; cp "$1/m" "$work/before_m"; cp "$1/p" "$work/before_p"; }

# They are as before.
kept() {
  cmp -s "$1/m" "$work/before_m" || fail "$2: the model changed"
  cmp -s "$1/p" "$work/before_p" || fail "$2: the proof changed"
}

# Each is as before, or whole.
kept_or_whole() {
  cmp -s "$1/m" "$work/before_m" || cmp -s "$1/m" "$work/whole_m" || fail "$2: a part of a model"
  cmp -s "$1/p" "$work/before_p" || cmp -s "$1/p" "$work/whole_p" || fail "$2: a part of a proof"
}

# No unfinished file is left.
clean() { ! ls "$1" | grep -q '^hrt-unfinished-' || fail "$2: an unfinished file is left"; }

# The run ends with this status.
ends() {
  local want=$1 status=0
  shift
  "$program" "$@" > "$work/report" || status=$?
  [ "$status" = "$want" ] || fail "$*: status $status, not $want"
}

mkdir "$work/d"
prepare "$work/d"
ends 5 bound "$work/i" "$work/d/m" "$work/d/absent/p"
kept "$work/d" "a missing folder"
clean "$work/d" "a missing folder"

ends 0 bound "$work/i" "$work/d/m" "$work/d/p"
cmp -s "$work/d/m" "$work/whole_m" && cmp -s "$work/d/p" "$work/whole_p" || fail "a whole run: other outputs"
clean "$work/d" "a whole run"

mkdir "$work/full"
if mount -t tmpfs -o size=64k tmpfs "$work/full" 2> /dev/null; then
  mounted=1
  prepare "$work/full"
  dd if=/dev/zero of="$work/full/filler" bs=4k 2> /dev/null || true
  ends 5 bound "$work/i" "$work/full/m" "$work/full/p"
  how="a full disk"
else
  prepare "$work/full"
  trap '' XFSZ
  status=0
  (ulimit -f 0; exec "$program" bound "$work/i" "$work/full/m" "$work/full/p" | cat > /dev/null; exit "${PIPESTATUS[0]}") || status=$?
  trap - XFSZ
  [ "$status" = 5 ] || fail "a limit on the size of files: status $status, not 5"
  how="a limit on the size of files"
fi
kept "$work/full" "$how"
clean "$work/full" "$how"

# A proof that goes to a pipe which nobody reads: the model is begun when the program is killed.
mkdir "$work/k"
prepare "$work/k"
mkfifo "$work/k/pipe"
"$program" bound "$work/i" "$work/k/m" "$work/k/pipe" > /dev/null &
sleep 1
kill -KILL $!
wait $! 2> /dev/null || true
kept "$work/k" "a kill"
ls "$work/k" | grep -q '^hrt-unfinished-' || echo "outputs: the kill came before the model was begun"
rm -f "$work/k"/hrt-unfinished-*
for delay in 0.001 0.002 0.003 0.005 0.008 0.013; do
  prepare "$work/k"
  timeout -s KILL "$delay" "$program" bound "$work/i" "$work/k/m" "$work/k/p" > /dev/null 2>&1 || true
  kept_or_whole "$work/k" "a kill after $delay s"
done

# One file under two names.
mkdir "$work/s"
prepare "$work/s"
cp "$work/i" "$work/s/i"
ln -s i "$work/s/link"
ln "$work/s/m" "$work/s/other"
cd "$work/s"
ends 5 quick i ./i p
ends 5 quick i link p
ends 5 quick i m ./m
ends 5 solve i ./i p
ends 5 solve i m ./m
ends 5 quick i m other
ends 5 quick i new ./new
cd - > /dev/null
kept "$work/s" "one file under two names"
cmp -s "$work/s/i" "$work/i" || fail "one file under two names: the instance changed"
clean "$work/s" "one file under two names"
[ ! -e "$work/s/new" ] || fail "one file under two names: a new file is there"

# What a link means is replaced, and keeps its permissions.
ln -s m "$work/d/link"
chmod 640 "$work/d/m"
ends 0 bound "$work/i" "$work/d/link" "$work/d/p"
[ -L "$work/d/link" ] && [ "$(stat -c %a "$work/d/m")" = 640 ] || fail "a link: it was replaced, or the permissions changed"

[ "$bad" = 0 ] && echo "outputs: whole, or as before ($how)"
exit "$bad"
