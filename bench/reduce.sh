#!/usr/bin/env bash
# Deletes the pairs of instances of up to 100,000 pairs in 20,000 lists and in 1,000 lists, and prints the seconds that `reduce`
# takes with its lines, the making of the model and of the derivation apart, beside `steps`: the sum, over pairs, of the lengths of
# the two lists in which a pair stands. It shows that the seconds grow no faster than that sum in these shapes.
# The lists are drawn, with no ties. So many pairs in 1,000 lists are within the limit on terms only where most hospitals have no posts:
# one in `every` has them. In the two with one choice for each resident a hospital refuses a part of its residents by offers of the
# others, as many as posts. The chains have one large hospital, which refuses one resident on each of so many visits: who is refused
# takes the place elsewhere of another, who has only the large hospital then. No command does this alone, so a program is built around
# the library in a copy of the crates that it stands on, which takes some minutes at first.
. "$(dirname "$0")/common.sh"
mkdir -p "$work/crates/reducing/src"
cp HANDLES "$work"
for crate in hrt_base hrt_host hrt_text hrt_reader rank_tables pb_rows row_text proof_lines proof_rules proof_steps stability_model derivation pair_reduction; do
  grep "^$crate:" crates.txt >> "$work/crates.txt"
  mkdir "$work/crates/$crate"
  cp -r "crates/$crate/src" "crates/$crate/specs" "crates/$crate/proofs" "$work/crates/$crate"
done
echo 'reducing: hrt_base rank_tables hrt_reader stability_model derivation pair_reduction' >> "$work/crates.txt"
cat > "$work/crates/reducing/src/main.rt" <<'EOF'
//! Prints how many pairs an instance has, how many are deleted, and the microseconds of making the model and of deleting.
#![tactic(auto)]

use derivation::Derivation;
use hrt_base::NoMemory;
use hrt_reader::read_instance;
use pair_reduction::reduce;
use rank_tables::Instance;
use stability_model::Model;
use std::io;
use std::time::Instant;
use std::{env, fs};

fn times(rt: HostRuntime, inst: &Instance) -> io::Result<()> {
    let begun = Instant::now(&rt)?;
    let Ok(model) = Model::of(rt.alloc(), inst) else {
        println!(rt; "no memory")?;
        return Ok(());
    };
    let _limits = (inst.pairs(), model.row_count());
    let Ok(mut deriv) = Derivation::new(rt.alloc(), &model) else {
        println!(rt; "no memory")?;
        return Ok(());
    };
    let made = begun.elapsed(&rt)?.as_micros();
    let begun = Instant::now(&rt)?;
    let Ok(gone) = reduce(rt.alloc(), inst, &model, &mut deriv) else {
        println!(rt; "no memory")?;
        return Ok(());
    };
    let reduced = begun.elapsed(&rt)?.as_micros();
    println!(rt; "{} {} {made} {reduced}", inst.pairs(), gone.count())?;
    Ok(())
}

fn main(rt: HostRuntime) -> io::Result<()> {
    for path in env::args(&rt)?.skip(1) {
        let bytes = fs::read(&rt, path.as_str())?;
        if bytes.len() > 67_108_864 {
            continue;
        }
        let Ok(inst) = read_instance(rt.alloc(), &bytes) else {
            println!(rt; "not read")?;
            continue;
        };
        times(rt, &inst)?;
    }
    Ok(())
}
EOF
(cd "$work/crates/reducing" && rt run > "$work/log" 2>&1) || { cat "$work/log"; exit 1; }
drawn_lists() {
  python3 -c "$lists_of_pairs"'
path, residents, hospitals, choices, posts, every = sys.argv[1], *map(int, sys.argv[2:])
random.seed(7)
lists = [random.sample(range(hospitals), choices) for _ in range(residents)]
named = named_by(lists, hospitals)
for list in named:
    random.shuffle(list)
write_instance(path, lists, named, lambda h: 0 if h % every else posts, "", "")
print(residents * choices * choices + sum(len(list) ** 2 for list in named))
' "$@"
}
# times_of SHAPE..: one line on the instance, whose steps are given first
times_of() {
  read -r _ peak _ pairs deleted made reduced <<< "$(measured "$work/crates/reducing/out/reducing" "$work/i.hrt")"
  printf '%9s %9s %7s %5s %5s %8s %9s %8s %8s %8s %9s\n' "$2" "$3" "$pairs" "$4" "$5" "$deleted" "$1" "$(per 1000000 "$made" 1)" "$(per 1000000 "$reduced" 1)" "$(per "$1" "$reduced" 1)" "$peak"
}
printf '%9s %9s %7s %5s %5s %8s %9s %8s %8s %8s %9s\n' residents hospitals pairs posts every deleted steps making seconds us/step 'peak MiB'
for shape in '1000 1000 10 1 1' '10000 10000 10 1 1' '10000 10000 10 2 1' '200 200 80 1 1' '500 500 80 1 1' '500 500 80 5 1' '112 888 888 5 25' '20000 400 1 25 1' '20000 100 1 100 1'; do
  read -r residents hospitals _ posts every <<< "$shape"
  times_of "$(drawn_lists "$work/i.hrt" $shape)" "$residents" "$hospitals" "$posts" "$every"
done
for chain in '100 80' '200 160' '400 320' '800 640'; do
  read -r posts links <<< "$chain"
  times_of "$(chained_instance "$work/i.hrt" "$posts" "$links")" $((posts + links + 1)) $((links + 1)) "$posts" -
done
