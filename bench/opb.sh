#!/usr/bin/env bash
# Reads models of up to close to 8,000,000 terms with the built program, and prints seconds and peak memory beside the terms. It
# shows that neither grows faster than the terms. `check` is given each model with one more line, which is none: so it reads all
# rows and refuses the model in its last line, before any proof. The models are those that `model` writes, and one row of as
# many terms.
. "$(dirname "$0")/common.sh"
one_row() {
  python3 -c '
import sys
path, terms = sys.argv[1], int(sys.argv[2])
with open(path, "w") as file:
    for k in range(terms):
        file.write(f"+1 x{k * 7919 % 100000 + 1} ")
    file.write(">= 1 ;\n")
' "$@"
}
row() {
  local terms seconds peak status told
  echo '+1 x1' >> "$work/m.opb"
  terms=$(terms_in "$work/m.opb")
  read -r seconds peak status told < <(measured "$program" check "$work/m.opb" "$work/p.pbp")
  printf '%9s %9s %6s %8.2f %8.2f %9s %11.1f %7s  %s\n' "$1" "$terms" "$(mebibytes "$work/m.opb")" "$seconds" "$(per "$terms" "$seconds" 1e6)" "$peak" "$(per "$terms" "$peak" 1048576)" "$status" "$told"
}
printf '%9s %9s %6s %8s %8s %9s %11s %7s\n' rows terms MiB seconds us/term 'peak MiB' 'bytes/term' status
: > "$work/p.pbp"
for count in 25 250 2500; do
  tied_instance "$work/i.hrt" "$count"
  "$program" model "$work/i.hrt" "$work/m.opb" > "$work/report"
  row many
done
for terms in 80000 800000 8000000; do
  one_row "$work/m.opb" "$terms"
  row one
done
