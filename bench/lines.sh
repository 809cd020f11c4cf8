#!/usr/bin/env bash
# Prints the lines per second that the program's `once`, and its reader of one feed by itself, read of eight feeds of 16,384
# lines, which `lines.py` makes: all markets with names of 4 and of 32 bytes, and the results alone. Beside them stand
# `wc -l` and a plain reader in C (`lines.c`) on the same feeds, and `once` of a yardstick if its path is handed in, whose
# report must be the same. It is no part of the gate. It needs `rt`, `python3` and `cc`, and proves and builds the reader's
# program in a folder of its own. The programs run by turns, and each figure is the least of RUNS runs.
#
#     bench/lines.sh [RUNS] [PROGRAM] [YARDSTICK]     10 runs of crates/arbscan/out/arbscan if not given
#
# The times of `FeedReader` and of the plain reader are of reading alone, over the bytes in memory. That of `once` is of the
# whole process, and that of `wc -l` of a process that reads each feed 16 times, divided by 16.
set -eu
export LC_ALL=C
top=$(cd "$(dirname "$0")/.." && pwd)
runs=${1:-10}
program=$(realpath -m "${2:-$top/crates/arbscan/out/arbscan}")
yardstick=${3:+$(realpath -m "$3")}
lines=131072
folder=$(mktemp -d)
trap 'rm -rf "$folder"' EXIT
bench="$folder/crates/line_bench"

for needed in "$program" $yardstick; do
    if [ ! -x "$needed" ]; then
        echo "no program $needed: crates/arbscan/out/arbscan is there after 'rt run' in crates/arbscan" >&2
        exit 1
    fi
done

mkdir -p "$bench/src"
# The crates that feed_lines stands on, and itself.
awk -F: '!/^#/ && NF { deps[$1] = $2 } END { n = split("feed_lines desk_io", open, " "); for (i = 1; i <= n; i++) if (!seen[open[i]]++) { print open[i]; m = split(deps[open[i]], more, " "); for (k = 1; k <= m; k++) open[++n] = more[k] } }' "$top/crates.txt" > "$folder/names"
while read -r crate; do
    if [ -d "$top/crates/$crate" ]; then
        mkdir -p "$folder/crates/$crate"
        (cd "$top/crates/$crate" && tar cf - --exclude ./out .) | tar xf - -C "$folder/crates/$crate"
        grep "^$crate:" "$top/crates.txt" >> "$folder/crates.txt"
    fi
done < "$folder/names"
echo "line_bench: desk_io feed_lines" >> "$folder/crates.txt"

cat > "$bench/src/main.rt" <<'RATTLE'
//! Reads the named feeds from memory. Prints how many lines they have, how many of them are refused, and the nanoseconds.
#![tactic(auto)]

use desk_io::MemSource;
use feed_lines::{FeedReader, Step};
use std::env;
use std::fs;
use std::io;
use std::time::Instant;

const PIECE: usize = 65_536;

// How many lines the feed has, and how many of them are refused.
fn counts(mut reader: FeedReader<MemSource>) -> Option<(u32, u32)> {
    let mut refused = 0u32;
    for _ in 0..u32::MAX {
        if reader.over() {
            break;
        }
        if let Step::Refused(_) = reader.next().ok()? {
            refused = refused.wrapping_add(1);
        }
    }
    Some((reader.lines(), refused))
}

fn main(rt: HostRuntime) -> io::Result<()> {
    let mut lines = 0u32;
    let mut refused = 0u32;
    let mut nanoseconds = 0u128;
    for name in env::args(&rt)?.skip(1) {
        let bytes = fs::read(&rt, name.as_str())?;
        let source = MemSource::new(bytes, PIECE, Vec::new(rt.alloc()));
        let start = Instant::now(&rt)?;
        let counted = counts(FeedReader::new(rt.alloc(), source, 0));
        let time = start.elapsed(&rt)?;
        if let Some((more, wrong)) = counted {
            lines = lines.wrapping_add(more);
            refused = refused.wrapping_add(wrong);
            nanoseconds = nanoseconds.wrapping_add(time.as_nanos());
        }
    }
    println!(rt; "{} {} {}", lines, refused, nanoseconds)
}
RATTLE

(cd "$bench" && rt run) > "$folder/line_bench.log" 2>&1 || { tail -40 "$folder/line_bench.log"; exit 1; }
cc -O2 -o "$folder/plain" "$top/bench/lines.c"

wrong() {
    echo "$1" >&2
    exit 1
}

# Runs a command with its output in a file, and appends the nanoseconds that it took to another.
timed() {
    local times=$1 output=$2 start stop
    shift 2
    start=$EPOCHREALTIME
    "$@" > "$output" || wrong "$1 ended with status $?"
    stop=$EPOCHREALTIME
    echo $(((${stop/./} - ${start/./}) * 1000)) >> "$times"
}

least() {
    sort -n "$1" | head -1
}

# NAME TIME: the lines per second.
rate() {
    awk -v name="$1" -v lines="$lines" -v time="$2" 'BEGIN { printf "    %-18s %11.0f lines a second", name, lines / time * 1e9 }'
}

# TIME OTHER NAME: the ratio to what has this name.
ratio() {
    awk -v time="$1" -v other="$2" -v name="$3" 'BEGIN { printf ", %.2f times the time of %s", time / other, name }'
}

for kind in "all 4" "all 32" "1x2 4"; do
    read -r markets bytes <<< "$kind"
    here="$folder/$markets-$bytes"
    "$top/bench/lines.py" "$markets" "$bytes" 1 "$here"
    refused=$(cat "$here/refused")
    feeds=("$here"/?.feed)
    sixteen=()
    for _ in {1..16}; do
        sixteen+=("${feeds[@]}")
    done

    for _ in $(seq "$runs"); do
        timed "$here/wc" "$here/wc.out" wc -l "${sixteen[@]}"
        "$folder/plain" "${feeds[@]}" > "$here/plain.out"
        "$bench/out/line_bench" "${feeds[@]}" > "$here/reader.out"
        timed "$here/once" "$here/once.out" "$program" once "${feeds[@]}"
        if [ -n "$yardstick" ]; then
            YARD_STAGE=r6 timed "$here/yardstick" "$here/yardstick.out" "$yardstick" once "${feeds[@]}"
            cmp "$here/once.out" "$here/yardstick.out" || wrong "the yardstick's report is another"
        fi
        cut -d ' ' -f 4 "$here/plain.out" >> "$here/plain"
        cut -d ' ' -f 3 "$here/reader.out" >> "$here/reader"
        [ "$(cut -d ' ' -f 1,2 "$here/reader.out")" = "$lines $refused" ] || wrong "FeedReader read other lines"
        awk -v want="$lines $refused" '$1 == "feed" { n += $6; m += $8 } END { exit n " " m != want }' "$here/once.out" || wrong "once read other lines"
    done

    wc=$(($(least "$here/wc") / 16))
    plain=$(least "$here/plain")
    reader=$(least "$here/reader")
    once=$(least "$here/once")
    echo "$([ "$markets" = all ] && echo "all markets" || echo "the results"), names of $bytes bytes:"
    rate "wc -l" "$wc"
    echo
    rate "plain reader" "$plain"
    ratio "$plain" "$wc" "wc -l"
    echo
    rate "FeedReader" "$reader"
    ratio "$reader" "$wc" "wc -l"
    ratio "$reader" "$plain" "the plain reader"
    echo
    rate "once" "$once"
    ratio "$once" "$reader" "FeedReader"
    if [ -n "$yardstick" ]; then
        ratio "$once" "$(least "$here/yardstick")" "the yardstick"
    fi
    echo
done
