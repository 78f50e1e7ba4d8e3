#!/usr/bin/env bash
# Reads instances of 1, 4, 16 and 64 MiB with the built program, few long lists and many short ones, and prints seconds and
# peak memory beside each other. It shows that neither grows faster than the bytes.
. "$(dirname "$0")/common.sh"
lists_of_names() {
  python3 -c '
import sys
path, size, residents = sys.argv[1], int(sys.argv[2]), int(sys.argv[3])
def name(side, number):
    return f"{side}{number:05d}".ljust(62, "n")
count = min(20_000, max(1, size // residents // 63))
with open(path, "w") as file:
    file.write("hrt 1\n")
    for r in range(residents):
        file.write(f"resident {name(chr(114), r)}: " + " ".join(name("h", (r + k) % count) for k in range(count)) + "\n")
    for h in range(count):
        file.write(f"hospital {name(chr(104), h)} 1:\n")
    file.write("end\n")
' "$@"
}
row() {
  local size seconds peak status told
  size=$(mebibytes "$work/i.hrt")
  read -r seconds peak status told < <(measured "$program" audit "$work/i.hrt" "$work/i.pairs")
  printf '%12s %6s %8.2f %7.3f %9s %9.2f %7s\n' "$1" "$size" "$seconds" "$(per "$size" "$seconds" 1)" "$peak" "$(per "$size" "$peak" 1)" "$status"
}
: > "$work/i.pairs"
printf '%12s %6s %8s %7s %9s %9s %7s\n' lists MiB seconds s/MiB 'peak MiB' peak/MiB status
for mib in 1 4 16 64; do
  size=$((mib * 1024 * 1024 * 95 / 100))
  lists_of_names "$work/i.hrt" "$size" "$(((mib * 54 + 63) / 64))"
  row 'few long'
  lists_of_names "$work/i.hrt" "$size" 20000
  row 'many short'
done
