#!/usr/bin/env bash
# Makes the first matching of instances of 20,000 residents and up to 100,000 pairs in long ties, and prints the seconds that
# `promote` takes, the reading of the instance apart, and the peak memory of both together. Each resident has its hospitals in
# one tie and each hospital its residents in one. With few posts most residents are refused by their whole list twice. It shows
# that the seconds grow with the pairs. No command does this alone, so a program is built around the library in a copy of the
# crates that it stands on, which takes a few minutes at first.
. "$(dirname "$0")/common.sh"
mkdir -p "$work/crates/promoting/src"
cp HANDLES "$work"
for crate in hrt_base rank_tables hrt_text hrt_reader promotion_heuristic; do
  grep "^$crate:" crates.txt >> "$work/crates.txt"
  mkdir "$work/crates/$crate"
  cp -r "crates/$crate/src" "crates/$crate/specs" "crates/$crate/proofs" "$work/crates/$crate"
done
echo 'promoting: rank_tables hrt_reader promotion_heuristic' >> "$work/crates.txt"
cat > "$work/crates/promoting/src/main.rt" <<'END'
//! Prints how many pairs the first matching of an instance has, and the milliseconds of reading and of promoting.
#![tactic(auto)]

use hrt_reader::read_instance;
use promotion_heuristic::promote;
use std::io;
use std::time::Instant;
use std::{env, fs};

fn main(rt: HostRuntime) -> io::Result<()> {
    for path in env::args(&rt)?.skip(1) {
        let bytes = fs::read(&rt, path.as_str())?;
        if bytes.len() > 67_108_864 {
            continue;
        }
        let begun = Instant::now(&rt)?;
        let Ok(inst) = read_instance(rt.alloc(), &bytes) else {
            println!(rt; "not read")?;
            continue;
        };
        let read = begun.elapsed(&rt)?.as_millis();
        let begun = Instant::now(&rt)?;
        let Ok(pairs) = promote(rt.alloc(), &inst) else {
            println!(rt; "no memory")?;
            continue;
        };
        let promoted = begun.elapsed(&rt)?.as_micros();
        println!(rt; "{} {read} {promoted}", pairs.len())?;
    }
    Ok(())
}
END
(cd "$work/crates/promoting" && rt run > "$work/log" 2>&1) || { cat "$work/log"; exit 1; }
long_ties() {
  python3 -c "$lists_of_pairs"'
path, residents, hospitals, choices, posts = sys.argv[1], *map(int, sys.argv[2:])
lists = [[(r * choices + k) % hospitals for k in range(choices)] for r in range(residents)]
write_instance(path, lists, named_by(lists, hospitals), lambda h: posts, "(", ")")
' "$@"
}
printf '%9s %9s %7s %5s %6s %8s %8s %8s %9s %7s\n' residents hospitals pairs posts first reading seconds us/pair 'peak MiB' status
for shape in '5000 400 5 5' '10000 800 5 5' '20000 1600 5 5' '20000 1600 5 1' '20000 1600 5 20' '20000 20000 5 1'; do
  read -r residents hospitals choices posts <<< "$shape"
  long_ties "$work/i.hrt" $shape
  read -r _ peak status size reading promoting < <(measured "$work/crates/promoting/out/promoting" "$work/i.hrt")
  pairs=$((residents * choices))
  printf '%9s %9s %7s %5s %6s %8.2f %8.3f %8.3f %9s %7s\n' "$residents" "$hospitals" "$pairs" "$posts" "$size" "$(per 1000 "$reading" 1)" "$(per 1e6 "$promoting" 1)" "$(per "$pairs" "$promoting" 1)" "$peak" "$status"
done
