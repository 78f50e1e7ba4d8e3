#!/usr/bin/env bash
# Writes the models of instances of 1,000, 10,000 and 100,000 pairs with the built program, the last of close to 8,000,000
# terms, and prints seconds and peak memory beside the terms. It shows that neither grows faster than the terms.
. "$(dirname "$0")/common.sh"
printf '%8s %8s %9s %8s %8s %8s %9s %7s\n' pairs rows terms MiB seconds us/term 'peak MiB' status
for count in 25 250 2500; do
  tied_instance "$work/i.hrt" "$count"
  read -r seconds peak status _ pairs _ rows < <(measured "$program" model "$work/i.hrt" "$work/m.opb")
  terms=$(terms_in "$work/m.opb")
  printf '%8s %8s %9s %8s %8.2f %8.2f %9s %7s\n' "$pairs" "$rows" "$terms" "$(mebibytes "$work/m.opb")" "$seconds" "$(per "$terms" "$seconds" 1e6)" "$peak" "$status"
done
