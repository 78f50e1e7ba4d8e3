#!/usr/bin/env bash
# Searches drawn instances with the built program, and prints what the search came to: how many rows it learned, seconds, rows a second, the
# proof's mebibytes, its bytes for each learned row, the peak memory, the seconds of `verify` on the proof beside them, and the last lines of
# the report. In each instance residents have lists without ties, each of so many hospitals, the posts are as many as the residents, and four of ten
# neighbours in a hospital's list are tied. Each is searched with a budget of 100 and of 1,000 learned rows: `best` with fewer says that the search
# came to its end. Give other budgets as arguments.
. "$(dirname "$0")/common.sh"
# recipe_instance PATH RESIDENTS HOSPITALS CHOICES NUMBER
recipe_instance() {
  python3 -c "$lists_of_pairs"'
path, residents, hospitals, choices, number = sys.argv[1], *map(int, sys.argv[2:])
random.seed(number)
lists = [random.sample(range(hospitals), choices) for _ in range(residents)]
posts = [residents // hospitals + (h < residents % hospitals) for h in range(hospitals)]
named = named_by(lists, hospitals)
def tied(names):
    groups = []
    for name in names:
        if groups and random.random() < 0.4:
            groups[-1].append(name)
        else:
            groups.append([name])
    return " ".join(group[0] if len(group) == 1 else "(" + " ".join(group) + ")" for group in groups)
with open(path, "w") as file:
    file.write("hrt 1\n")
    for r, list in enumerate(lists):
        file.write(f"resident r{r}: " + " ".join(f"h{h}" for h in list) + "\n")
    for h, list in enumerate(named):
        random.shuffle(list)
        file.write(f"hospital h{h} {posts[h]}: " + tied([f"r{r}" for r in list]) + "\n")
    file.write("end\n")
' "$@"
}
# report_of FILE: ceiling, first, conflicts, size, and whether it is best, in one line
report_of() {
  awk '$1 == "ceiling" || $1 == "first" || $1 == "conflicts" || $1 == "size" { printf "%s ", $2 } $1 == "best" { print "best" } $1 == "at" { print "open" }' "$1"
}
# searched_on RESIDENTS HOSPITALS CHOICES BUDGET
searched_on() {
  local seconds peak status verifying rest ceiling first conflicts size end bytes
  read -r seconds peak status rest < <(measured "$program" solve "$work/i.hrt" "$work/m.opb" "$work/p.pbp" --conflicts "$4")
  "$program" solve "$work/i.hrt" "$work/m.opb" "$work/p.pbp" --conflicts "$4" > "$work/report" || true
  read -r ceiling first conflicts size end < <(report_of "$work/report")
  read -r verifying rest < <(measured "$program" verify "$work/i.hrt" "$work/p.pbp")
  bytes=$(stat -c %s "$work/p.pbp")
  printf '%9s %9s %7s %8s %8s %6s %6s %9s %8.2f %8s %8s %9s %9s %9.2f %s\n' "$1" "$2" "$3" "$4" "$ceiling" "$first" "$size" "$conflicts" "$seconds" \
    "$(python3 -c 'import sys; c, s = map(float, sys.argv[1:]); print(f"{c / s:.0f}" if c else "-")' "$conflicts" "$seconds")" "$(mebibytes "$work/p.pbp")" \
    "$(python3 -c 'import sys; b, c = map(int, sys.argv[1:]); print(b // c if c else "-")' "$bytes" "$conflicts")" "$peak" "$verifying" "$end"
}
printf '%9s %9s %7s %8s %8s %6s %6s %9s %8s %8s %8s %9s %9s %9s %s\n' residents hospitals choices budget ceiling first size learned seconds rows/s MiB bytes/row 'peak MiB' verifying end
for recipe in '100 25 4' '100 8 6' '200 20 6' '300 60 4' '400 30 6' '800 50 6' '800 100 6'; do
  recipe_instance "$work/i.hrt" $recipe 7
  for budget in "${@:-100 1000}"; do
    for most in $budget; do
      searched_on $recipe "$most"
    done
  done
done
