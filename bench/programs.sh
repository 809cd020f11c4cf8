#!/usr/bin/env bash
# Prints the pivots per second of `pivot_rule::run` on the homogeneous programs of sheets of 53, 64 and 256 offers, which
# `sheets.py` makes with odds in steps of 0.05 and of 0.01. If the path of a yardstick is handed in, it judges feeds with
# the same offers, and the ratio of the times is printed; both must make as many pivots. It is no part of the gate. It needs
# `rt` and `python3`, and proves and builds its program in a folder of its own. Each figure is the least of RUNS runs.
#
#     bench/programs.sh [RUNS] [YARDSTICK]     10 runs if not given
set -eu
top=$(cd "$(dirname "$0")/.." && pwd)
runs=${1:-10}
yardstick=${2:-}
folder=$(mktemp -d)
trap 'rm -rf "$folder"' EXIT
bench="$folder/crates/program_bench"

mkdir -p "$bench/src" "$bench/specs" "$bench/proofs"
# The crates that pivot_rule stands on, and itself.
awk -F: '!/^#/ && NF { deps[$1] = $2 } END { n = split("pivot_rule", open, " "); for (i = 1; i <= n; i++) if (!seen[open[i]]++) { print open[i]; m = split(deps[open[i]], more, " "); for (k = 1; k <= m; k++) open[++n] = more[k] } }' "$top/crates.txt" > "$folder/names"
while read -r crate; do
    if [ -d "$top/crates/$crate" ]; then
        mkdir -p "$folder/crates/$crate"
        (cd "$top/crates/$crate" && tar cf - --exclude ./out .) | tar xf - -C "$folder/crates/$crate"
        grep "^$crate:" "$top/crates.txt" >> "$folder/crates.txt"
    fi
done < "$folder/names"
echo "program_bench: row_definitions pivot_definitions fraction_tableau pivot_rule" >> "$folder/crates.txt"

sheets=()
for offers in 53 64 256; do
    for grain in 50 10; do
        mkdir -p "$folder/$offers-$grain"
        "$top/bench/sheets.py" "$offers" 1 "$grain" "$folder/$offers-$grain"
        cat "$folder/$offers-$grain/program.txt" >> "$bench/programs.txt"
        sheets+=("$offers-$grain")
    done
done

cat > "$bench/src/main.rt" <<RATTLE
#![tactic(auto)]

ghost use Rattle.std.specs.Prelude.{IfSome};
ghost use Rattle.pivot_rule.specs.Ends.{IsCappedStart};

use fraction_tableau::{Program, Tableau};
use pivot_rule::{RunEnd, run};
use std::alloc::Global;
use std::fs;
use std::io;
use std::time::Instant;

const BUDGET: u32 = 4096;

// The whole numbers of a line.
fn numbers(alloc: Global, line: &str) -> Option<Vec<i128>> {
    let mut numbers = Vec::new(alloc);
    for word in line.split_whitespace() {
        match word.parse::<i128>() {
            Ok(x) => numbers.push(x).ok()?,
            Err(_) => return None,
        }
    }
    Some(numbers)
}

// The tableau as built of columns, rows, coefficients and right sides.
fn started(alloc: Global, numbers: &[i128]) -> Option<Tableau>
    ensures { IfSome result IsCappedStart }
{
    let columns = *numbers.get(0)?;
    let rows = *numbers.get(1)?;
    if columns < 1 || columns > 2048 || rows < 1 || rows > 2048 {
        return None;
    }
    let count = columns as usize * rows as usize;
    let coefs = numbers.get(2..2 + count)?;
    let right = numbers.get(2 + count..)?;
    if !Program::fits(columns as u32, rows as u32, coefs, right) {
        return None;
    }
    let program = Program::of(columns as u32, rows as u32, coefs.to_vec(alloc).ok()?, right.to_vec(alloc).ok()?);
    if !program.is_capped() {
        return None;
    }
    match Tableau::build(alloc, &program) {
        Ok(tableau) => Some(tableau),
        Err(_) => None,
    }
}

fn pivots_of(end: RunEnd) -> u32 {
    match end {
        RunEnd::Best(pivots) => pivots,
        RunEnd::Wide { pivots, .. } => pivots,
        RunEnd::OutOfPivots(pivots) => pivots,
    }
}

fn main(rt: HostRuntime) -> io::Result<()> {
    let text = fs::read_to_string(&rt, "programs.txt")?;
    let mut sheet = 0u32;
    for line in text.lines() {
        if let Some(numbers) = numbers(rt.alloc(), line) {
            for _ in 0..$runs {
                if let Some(mut tableau) = started(rt.alloc(), &numbers) {
                    let start = Instant::now(&rt)?;
                    let pivots = pivots_of(run(&mut tableau, BUDGET));
                    let time = start.elapsed(&rt)?;
                    println!(rt; "{} {} {}", sheet, pivots, time.as_nanos())?;
                }
            }
        }
        sheet = sheet.wrapping_add(1);
    }
    Ok(())
}
RATTLE

(cd "$bench" && rt run) > "$folder/ours.txt" 2> "$folder/ours.log" || { tail -40 "$folder/ours.log"; exit 1; }

# The fastest run is the one that the rest of the machine disturbed least.
for k in "${!sheets[@]}"; do
    sheet=${sheets[$k]}
    read -r pivots time < <(awk -v k="$k" '$1 == k { if (!t || $3 < t) t = $3; n = $2 } END { print n, t }' "$folder/ours.txt")
    awk -v s="$sheet" -v n="$pivots" -v t="$time" 'BEGIN { split(s, w, "-"); printf "%3d offers, odds in steps of 0.%03d: %3d pivots, %8.0f a second", w[1], w[2], n, n / t * 1e9 }'
    if [ -n "$yardstick" ]; then
        for _ in $(seq "$runs"); do
            YARD_PROFILE=1 YARD_STAGE=r6 "$yardstick" once "$folder/$sheet"/*.feed 2>&1 | awk '
                / pivot \[/ { sub(/.* pivot \[/, ""); split($0, times, /, */) }
                /^runs / { sub(/.*pivots \[/, ""); split($0, counts, /, */) }
                END { print counts[2], times[2] * 1e6 }'
        done > "$folder/theirs.txt"
        read -r their_pivots their_time < <(awk '{ if (!t || $2 < t) t = $2; n = $1 } END { print n, t }' "$folder/theirs.txt")
        if [ "$pivots" != "$their_pivots" ]; then
            echo
            echo "the yardstick made $their_pivots pivots" >&2
            exit 1
        fi
        awk -v a="$time" -v b="$their_time" 'BEGIN { printf ", %.2f times the time of the yardstick", a / b }'
    fi
    echo
done
