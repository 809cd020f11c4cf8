#!/usr/bin/env bash
# Prints how many checks per second `cert_checker::check` makes of two verdicts that are right, so that every test is run to
# its end: a `coherent` and a `thin` on a sheet of 256 offers. It is no part of the gate. It needs `rt`, and proves and
# builds its program in a folder of its own: some minutes, and then a second.
#
#     bench/checks.sh [RUNS]     RUNS checks of each (500 if not given), timed one by one, the fastest of which counts
#
# A loop over one check would measure nothing: the call is pure, so the compiler makes it once.
#
# Eight feeds have 32 selections each: the three results, eight home and seven away handicaps, seven totals over and
# seven under. The feeds take turns at the three rules on abandoned matches. Both verdicts weigh all 98 stand-ins, the
# most that a judged sheet can have, with weights of up to 59 bits. The odds are the highest at which no bet gains on
# average, which the program finds by the checker itself. The `thin` has a part for each offer, on a sheet with limits of
# one unit, where one feed pays 2.100 on over and on under 5.5 goals.
set -eu
top=$(cd "$(dirname "$0")/.." && pwd)
runs=${1:-500}
checks=1
folder=$(mktemp -d)
trap 'rm -rf "$folder"' EXIT

mkdir -p "$folder/crates/check_bench/src"
for crate in want_of_memory scan_types settlement_definitions finding_definitions settlement_laws price_duality quarter_lines \
    market_rules void_rules settle_classes cert_checker; do
    mkdir "$folder/crates/$crate"
    (cd "$top/crates/$crate" && tar cf - --exclude ./out .) | tar xf - -C "$folder/crates/$crate"
    grep "^$crate:" "$top/crates.txt" >> "$folder/crates.txt"
done
echo "check_bench: scan_types finding_definitions settle_classes cert_checker" >> "$folder/crates.txt"

cat > "$folder/crates/check_bench/src/main.rt" <<RATTLE
#![tactic(auto)]

use cert_checker::{Answer, check};
use finding_definitions::{Finding, Measure, Parts};
use scan_types::limits::{LEAST_ODDS, MOST_ODDS};
use scan_types::{HandicapLine, Odds, Offer, Outcome, Selection, Sheet, TotalLine, VoidRule};
use settle_classes::{STAND_INS, stand_in};
use std::alloc::Global;
use std::io;
use std::time::Instant;

const FEEDS: u8 = 8;
const PLACES: u8 = 32;
const FAVOURED: u8 = 4;
const UNIT: u64 = 1 << 59;

// The next state of the generator.
fn next(x: u64) -> u64 {
    x.wrapping_mul(6364136223846793005).wrapping_add(1442695040888963407)
}

// What a feed quotes at a place of its list, in the order of selections.
fn selection(feed: u8, place: u8) -> Option<Selection> {
    let quarters = 4 * i16::from(place) + i16::from(feed % 4);
    if place == 0 {
        Some(Selection::Home)
    } else if place == 1 {
        Some(Selection::Draw)
    } else if place == 2 {
        Some(Selection::Away)
    } else if place < 11 {
        Some(Selection::HandicapHome(HandicapLine::new(quarters - 26)?))
    } else if place < 18 {
        Some(Selection::HandicapAway(HandicapLine::new(quarters - 58)?))
    } else if place < 25 {
        Some(Selection::Over(TotalLine::new(quarters - 70)?))
    } else {
        Some(Selection::Under(TotalLine::new(quarters - 98)?))
    }
}

fn rule(feed: u8) -> VoidRule {
    if feed % 3 == 0 {
        VoidRule::Void
    } else if feed % 3 == 1 {
        VoidRule::Score
    } else {
        VoidRule::Decided
    }
}

// Over and under 5.5 goals at the feed that pays too much on both.
fn is_favoured(feed: u8, place: u8) -> bool {
    feed == FAVOURED && (place == 23 || place == 30)
}

fn offer(feed: u8, place: u8, odds: u32, limit: u32) -> Option<Offer> {
    Offer::new(feed, selection(feed, place)?, Odds::new(odds)?, limit, rule(feed))
}

fn pushed(sheet: &mut Sheet, offer: Offer) -> Option<()> {
    if sheet.fits(&offer) { sheet.push(offer).ok() } else { None }
}

fn entries(alloc: Global) -> Option<Vec<(Outcome, u64)>> {
    let mut entries = Vec::new(alloc);
    let mut x = 1;
    for k in 0..STAND_INS {
        x = next(x);
        entries.push((stand_in(k), (x >> 5) | 1)).ok()?;
    }
    Some(entries)
}

fn is_right(sheet: &Sheet, finding: &Finding) -> bool {
    matches!(check(sheet, finding), Answer::Yes(_))
}

// The highest odds at which the offer gains nothing on average. The sheet is there for its memory.
fn fair(sheet: &mut Sheet, coherent: &Finding, feed: u8, place: u8) -> Option<u32> {
    let mut odds = LEAST_ODDS;
    for k in 0..20u32 {
        let higher = odds.saturating_add(1 << (19 - k));
        if higher <= MOST_ODDS {
            sheet.clear();
            pushed(sheet, offer(feed, place, higher, 1)?)?;
            odds = if is_right(sheet, coherent) { higher } else { odds };
        }
    }
    Some(odds)
}

fn fair_sheet(alloc: Global, coherent: &Finding) -> Option<Sheet> {
    let (mut sheet, mut one) = (Sheet::new(alloc), Sheet::new(alloc));
    for feed in 0..FEEDS {
        for place in 0..PLACES {
            let odds = fair(&mut one, coherent, feed, place)?;
            pushed(&mut sheet, offer(feed, place, odds, 100_000)?)?;
        }
    }
    Some(sheet)
}

fn favoured_sheet(alloc: Global, coherent: &Finding) -> Option<Sheet> {
    let (mut sheet, mut one) = (Sheet::new(alloc), Sheet::new(alloc));
    for feed in 0..FEEDS {
        for place in 0..PLACES {
            let odds = if is_favoured(feed, place) { 2_100 } else { fair(&mut one, coherent, feed, place)? };
            pushed(&mut sheet, offer(feed, place, odds, 1)?)?;
        }
    }
    Some(sheet)
}

// A whole unit on each of the favoured offers, and next to nothing on the others.
fn parts(alloc: Global) -> Option<Vec<u64>> {
    let mut parts = Vec::new(alloc);
    let mut x = 2;
    for feed in 0..FEEDS {
        for place in 0..PLACES {
            x = next(x);
            parts.push(if is_favoured(feed, place) { UNIT } else { x >> 24 }).ok()?;
        }
    }
    Some(parts)
}

// How many of so many checks said yes.
fn right_answers(sheet: &Sheet, finding: &Finding) -> u32 {
    let mut right: u32 = 0;
    for _ in 0..$checks {
        right = right.saturating_add(if is_right(sheet, finding) { 1 } else { 0 });
    }
    right
}

fn main(rt: HostRuntime) -> io::Result<()> {
    let a = rt.alloc();
    let (Some(first), Some(second), Some(parts)) = (entries(a), entries(a), parts(a)) else {
        return Ok(());
    };
    let coherent = Finding::Coherent(Measure::of(first));
    let thin = Finding::Thin(Parts::of(UNIT, parts), Measure::of(second));
    let (Some(fair), Some(favoured)) = (fair_sheet(a, &coherent), favoured_sheet(a, &coherent)) else {
        return Ok(());
    };
    for _ in 0..$runs {
        let start = Instant::now(&rt)?;
        let right = right_answers(&fair, &coherent);
        let time = start.elapsed(&rt)?;
        println!(rt; "coherent {} {}", right, time.as_micros())?;
        let start = Instant::now(&rt)?;
        let right = right_answers(&favoured, &thin);
        let time = start.elapsed(&rt)?;
        println!(rt; "thin {} {}", right, time.as_micros())?;
    }
    Ok(())
}
RATTLE

(cd "$folder/crates/check_bench" && rt run) > "$folder/times.txt" 2> "$folder/log.txt" || { tail -40 "$folder/log.txt"; exit 1; }

# The fastest run of each is the one that the rest of the machine disturbed least.
for kind in coherent thin; do
    grep -E "^$kind [0-9]+ [0-9]+\$" "$folder/times.txt" | awk -v kind="$kind" -v checks="$checks" '
        $2 != checks { wrong = 1 }
        $3 > 0 { s = $2 * 1000000 / $3; if (s > best) best = s }
        END { if (wrong || !best) { print "not every " kind " was found right"; exit 1 }
              printf "%-8s  256 offers, 98 entries: %.0f checks per second\n", kind, best }'
done
