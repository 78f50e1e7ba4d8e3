#!/usr/bin/env bash
# Checks proofs with the built program, and prints seconds and peak memory.
# The first table has proofs that `quick` writes, what writing them took beside what `verify` took: on drawn instances of 100 to
# 2,000 residents with six choices each, hospitals of some 15 posts, and four of ten neighbours in a list tied; then on the chains
# of reduce.sh, of which each takes an offer of a large hospital for each link. A line that deletes a pair goes, for each post of its
# hospital, through as many offers: `squares` is the sum of the squares of the posts, over the pairs deleted. It shows that checking
# such proofs grows no faster than these squares.
# The second table has proofs that python3 writes, which `check` judges: short `rup` lines that touch two rows each, over 100,000
# rows of which 10,000 are units; and cuts, which add two rows of 80 terms, weaken, divide, multiply, add and saturate, and are
# deleted by the next line, over rows of 8,000,000 terms in all. The model alone, with no line, stands before each, and its seconds
# are left out of those for a part, which is a `rup` line or a term of a row that a cut names. It shows that neither grows with the
# rows that a line doesn't touch.
. "$(dirname "$0")/common.sh"
# drawn_instance PATH RESIDENTS: six choices, hospitals of some 15 posts, two neighbours of a list tied with 40 %
drawn_instance() {
  python3 -c '
import random, sys
path, residents = sys.argv[1], int(sys.argv[2])
random.seed(residents)
hospitals = max(6, residents // 15)
posts = [random.randint(12, 18) for _ in range(hospitals)]
lists = [random.sample(range(hospitals), 6) for _ in range(residents)]
named = [[] for _ in range(hospitals)]
for r, list in enumerate(lists):
    for h in list:
        named[h].append(r)
def tied(names):
    groups = []
    for name in names:
        if groups and random.random() < 0.4:
            groups[-1].append(name)
        else:
            groups.append([name])
    return " ".join(group[0] if len(group) == 1 else "(" + " ".join(group) + ")" for group in groups)
with open(path, "w") as file:
    file.write("hrt 1\n")
    for r, list in enumerate(lists):
        file.write(f"resident r{r}: " + tied([f"h{h}" for h in list]) + "\n")
    for h, list in enumerate(named):
        random.shuffle(list)
        file.write(f"hospital h{h} {posts[h]}: " + tied([f"r{r}" for r in list]) + "\n")
    file.write("end\n")
' "$@"
}
# squares_of INSTANCE PROOF: how many pairs the proof deletes, and the sum of the squares of their hospitals' posts. Pairs are
# numbered as they stand in the lists of residents, where each side names the other.
squares_of() {
  python3 -c '
import re, sys
posts, hospital_of = {}, []
for line in open(sys.argv[1]):
    words = re.sub(r"[():]", " ", line).split()
    if words[0] == "resident":
        hospital_of += words[2:]
    elif words[0] == "hospital":
        posts[words[1]] = int(words[2])
gone = [int(line.split()[2][2:]) for line in open(sys.argv[2]) if line.startswith("rup ")]
print(len(gone), sum(posts[hospital_of[p - 1]] ** 2 for p in gone))
' "$@"
}
# short_lines MODEL PROOF LINES: 10,000 units, and pairs of rows of eight terms, six of them of literals that the units make false;
# each line follows from one such pair, whose three other variables no further row has
short_lines() {
  python3 -c '
import random, sys
model, proof, lines = sys.argv[1], sys.argv[2], int(sys.argv[3])
random.seed(7)
units, pairs, variables = 10000, 45000, 100000
triples = (variables - units) // 3
alone = pairs - triples
def first_of(pair):
    return units + 1 + 3 * (pair % triples)
def false_literals():
    return " ".join(f"+1 x{v}" for v in sorted(random.sample(range(1, units + 1), 6)))
with open(model, "w") as file:
    file.write("min: +0 x1 ;\n")
    for v in range(1, units + 1):
        file.write(f"+1 ~x{v} >= 1 ;\n")
    for k in range(pairs):
        a = first_of(k)
        file.write(f"{false_literals()} +1 ~x{a} +1 x{a + 1} >= 1 ;\n{false_literals()} +1 ~x{a + 1} +1 x{a + 2} >= 1 ;\n")
with open(proof, "w") as file:
    file.write(f"pseudo-Boolean proof version 2.0\nf {units + 2 * pairs}\n")
    for k in range(lines):
        a = first_of(alone + k)
        file.write(f"rup +1 ~x{a} +1 x{a + 2} >= 1 ;\n")
    file.write("output NONE\nconclusion NONE\nend pseudo-Boolean proof\n")
' "$@"
}
# cuts MODEL PROOF LINES: 100,000 rows of 80 terms over 20,000 variables, and lines that add two of them, each deleted by the next
cuts() {
  python3 -c '
import random, sys
model, proof, lines = sys.argv[1], sys.argv[2], int(sys.argv[3])
random.seed(7)
rows, width, variables = 100000, 80, 20000
firsts = []
with open(model, "w") as file:
    file.write("min: +0 x1 ;\n")
    for r in range(rows):
        chosen = sorted(random.sample(range(1, variables + 1), width))
        firsts.append((chosen[0], chosen[1]))
        file.write(" ".join(f"+{1 + (v + r) % 9} x{v}" for v in chosen) + f" >= {width} ;\n")
with open(proof, "w") as file:
    file.write(f"pseudo-Boolean proof version 2.0\nf {rows}\n")
    for k in range(lines):
        a, b = random.sample(range(rows), 2)
        file.write(f"pol {a + 1} {b + 1} x{firsts[b][0]} w x{firsts[b][1]} w 2 d 3 * + s\ndel id {rows + 1 + k}\n")
    file.write("output NONE\nconclusion NONE\nend pseudo-Boolean proof\n")
' "$@"
}
# ratio AMOUNT COUNT: microseconds for each of COUNT, or `-` where there is none
ratio() {
  if [ "$2" -eq 0 ]; then echo -; else per "$2" "$1" 1e6; fi
}
# both_on SHAPE SIZE: writes the proof of the instance and verifies it
both_on() {
  local writing peak verifying other status told gone squares
  read -r writing peak _ < <(measured "$program" quick "$work/i.hrt" "$work/m.opb" "$work/p.pbp")
  read -r verifying other status told < <(measured "$program" verify "$work/i.hrt" "$work/p.pbp")
  read -r gone squares < <(squares_of "$work/i.hrt" "$work/p.pbp")
  printf '%-6s %6s %7s %10s %8s %9.3f %9s %9.3f %9s %9s %7s %s\n' "$1" "$2" "$gone" "$squares" "$(mebibytes "$work/p.pbp")" "$writing" "$peak" "$verifying" "$other" "$(ratio "$verifying" "$squares")" "$status" "$told"
}
printf '%-6s %6s %7s %10s %8s %9s %9s %9s %9s %9s %7s %s\n' shape size deleted squares MiB writing 'peak MiB' verifying 'peak MiB' us/square status report
for residents in 100 200 400 800 2000; do
  drawn_instance "$work/i.hrt" "$residents"
  both_on drawn "$residents"
done
for chain in '100 80' '200 160' '400 320' '800 640'; do
  chained_instance "$work/i.hrt" $chain > "$work/steps"
  both_on chain "${chain% *}"
done
printf '\n%-6s %8s %10s %9s %9s %8s %7s %s\n' lines count parts checking 'peak MiB' us/part status report
# judged_on KIND COUNT PARTS: a proof with so many lines, each of so many parts
judged_on() {
  local seconds peak status told parts=$(($2 * $3))
  "$1" "$work/m.opb" "$work/p.pbp" "$2"
  read -r seconds peak status told < <(measured "$program" check "$work/m.opb" "$work/p.pbp")
  if [ "$2" -eq 0 ]; then alone=$seconds; fi
  printf '%-6s %8s %10s %9.3f %9s %8s %7s %s\n' "${1%%_*}" "$2" "$parts" "$seconds" "$peak" "$(ratio "$(python3 -c 'import sys; print(float(sys.argv[1]) - float(sys.argv[2]))' "$seconds" "$alone")" "$parts")" "$status" "$told"
}
for count in 0 1000 10000; do
  judged_on short_lines "$count" 1
done
for count in 0 15000 150000; do
  judged_on cuts "$count" 160
done
