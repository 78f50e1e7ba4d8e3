# What the benches share: where the program is, a folder for files, instances in ties, and how a run is measured.
# To be sourced. Build first: rt run in crates/hrt.
set -eu
cd "$(dirname "${BASH_SOURCE[0]}")/.."
program=$PWD/crates/hrt/out/hrt
work=$(mktemp -d)
trap 'rm -rf "$work"' EXIT

# measured PROGRAM WORDS..: runs it, and prints the seconds, the peak in MiB, the status, and what it told, in one line. It measures
# in a process of its own, since what a parent holds counts as the peak of its children.
measured() {
  python3 -c '
import os, subprocess, sys, time
begun = time.monotonic()
run = subprocess.Popen(sys.argv[1:], stdout=subprocess.PIPE)
told = run.stdout.read().decode().split()
_, status, usage = os.wait4(run.pid, 0)
seconds = time.monotonic() - begun
print(f"{seconds:.4f} {usage.ru_maxrss / 1024:.1f} {os.waitstatus_to_exitcode(status)}", *told[:8])
' "$@"
}

# per COUNT AMOUNT FACTOR: AMOUNT times FACTOR for each of COUNT
per() {
  python3 -c 'import sys; count, amount, factor = map(float, sys.argv[1:]); print(f"{amount * factor / count:.3f}")' "$@"
}

# mebibytes FILE
mebibytes() {
  python3 -c 'import os, sys; print(f"{os.path.getsize(sys.argv[1]) / 2**20:.1f}")' "$1"
}

# terms_in FILE: how many terms the rows of a model have, its comment and its objective apart
terms_in() {
  grep -v -e '^\*' -e '^min:' "$1" | tr -cd x | wc -c
}

# tied_instance PATH COUNT: as many residents as hospitals, each resident with up to 40 hospitals in one tie, and each hospital
# with its residents in two
tied_instance() {
  python3 -c '
import sys
path, count = sys.argv[1], int(sys.argv[2])
choices = min(count, 40)
with open(path, "w") as file:
    file.write("hrt 1\n")
    for r in range(count):
        file.write(f"resident r{r}: (" + " ".join(f"h{(r + k) % count}" for k in range(choices)) + ")\n")
    for h in range(count):
        names = [f"r{(h - k) % count}" for k in range(choices)]
        file.write(f"hospital h{h} 3: ({names[0]} {names[1]}) (" + " ".join(names[2:]) + ")\n")
    file.write("end\n")
' "$@"
}

# Python that makes an instance of the lists of residents: who names each hospital, and the text, with each list in one tie or none.
lists_of_pairs='
import random, sys
def named_by(lists, hospitals):
    named = [[] for _ in range(hospitals)]
    for r, list in enumerate(lists):
        for h in list:
            named[h].append(r)
    return named
def write_instance(path, lists, named, posts_of, opened, closed):
    with open(path, "w") as file:
        file.write("hrt 1\n")
        for r, list in enumerate(lists):
            file.write(f"resident r{r}: {opened}" + " ".join(f"h{h}" for h in list) + f"{closed}\n")
        for h, list in enumerate(named):
            file.write(f"hospital h{h} {posts_of(h)}: {opened}" + " ".join(f"r{r}" for r in list) + f"{closed}\n")
        file.write("end\n")
'

# chained_instance PATH POSTS LINKS: a hospital with so many posts, and for each link one that takes its resident in the place of
# another. Prints the sum, over pairs, of the lengths of the two lists in which a pair stands.
chained_instance() {
  python3 -c "$lists_of_pairs"'
path, posts, links = sys.argv[1], *map(int, sys.argv[2:])
waiting = [[k + 1, 0] for k in range(links)]
staying = [[0]] * (posts - links)
refused = [[0]] + [[0, k + 1] for k in reversed(range(links))]
lists = waiting + staying + refused
last = len(lists) - 1
named = [list(range(len(lists)))] + [[last - k, k] for k in range(links)]
write_instance(path, lists, named, lambda h: 1 if h else posts, "", "")
print(sum(len(list) ** 2 for list in lists) + sum(len(list) ** 2 for list in named))
' "$@"
}
