#!/usr/bin/env bash
# Checks proofs with one long `pol` line, with one long `del` line, with a `del` line for each row, with a long `del` line
# after which 100 `rup` lines follow, and with a `pol` line that weakens one long row by all variables but one, over formulas of
# 1,000, 10,000 and 100,000 rows (the last over one row of so many terms), with the built program. Prints seconds in all and
# microseconds for a number or a variable that the lines name. All rows have the literal x1, and each is named once, the newest
# first; the variables come in falling order. So the time for one shows whether it grows with the rows that are live or that share a
# literal, or with the terms of the row. A proof that names `none` shows how long the model takes.
. "$(dirname "$0")/common.sh"
long_lines() {
  python3 -c '
import sys
model, proof, kind, count = sys.argv[1], sys.argv[2], sys.argv[3], int(sys.argv[4])
numbers = range(count, 0, -1)
with open(model, "w") as file:
    if kind == "weak":
        file.write(" ".join(f"+1 x{v}" for v in range(1, count + 1)) + f" >= {count} ;\n")
    else:
        file.write("min: +0 x2 ;\n" + "+1 x1 +1 x2 >= 1 ;\n" * count)
with open(proof, "w") as file:
    rows = 1 if kind == "weak" else count
    file.write(f"pseudo-Boolean proof version 2.0\nf {rows}\n")
    if kind == "pol":
        file.write("pol " + " ".join(f"{n} +" for n in numbers).replace(" +", "", 1) + "\n")
    elif kind == "del" or kind == "rup":
        file.write("del id " + " ".join(str(n) for n in numbers if kind == "del" or n > 1) + "\n")
    elif kind == "weak":
        file.write("pol 1 " + " ".join(f"x{n} w" for n in numbers if n > 1) + "\n")
    elif kind == "dels":
        file.write("".join(f"del id {n}\n" for n in numbers))
    if kind == "rup":
        file.write("rup +1 x1 +1 x2 >= 1 ;\n" * 100)
    file.write("output NONE\nconclusion NONE\nend pseudo-Boolean proof\n")
' "$@"
}
printf '%5s %8s %8s %9s %9s %7s %s\n' lines numbers seconds us/number 'peak MiB' status report
for kind in none pol del dels rup weak; do
  for count in 1000 10000 100000; do
    long_lines "$work/m.opb" "$work/p.pbp" "$kind" "$count"
    read -r seconds peak status told < <(measured "$program" check "$work/m.opb" "$work/p.pbp")
    printf '%5s %8s %8.3f %9s %9s %7s %s\n' "$kind" "$count" "$seconds" "$(per "$count" "$seconds" 1e6)" "$peak" "$status" "$told"
  done
done
