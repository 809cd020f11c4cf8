#!/usr/bin/env bash
# Prints where the time of `once` goes, by crate, and its peak memory, on eight feeds of 16,384 lines, which `lines.py` makes:
# all markets with names of 4 and of 32 bytes, and the results alone. It is no part of the gate. It needs `perf`, `python3` and
# `/usr/bin/time`.
#
#     bench/board.sh [RUNS] [PROGRAM]     50 runs of crates/arbscan/out/arbscan if not given
#
# A sample counts for the crate in whose function it fell. A function that the compiler put into its caller counts for the
# caller's crate. So the maps and lists of the board stand under `quote_board` if it is named in their type, and else under
# `maps and lists`.
set -eu
export LC_ALL=C
top=$(cd "$(dirname "$0")/.." && pwd)
runs=${1:-50}
program=$(realpath -m "${2:-$top/crates/arbscan/out/arbscan}")
folder=$(mktemp -d)
trap 'rm -rf "$folder"' EXIT

if [ ! -x "$program" ]; then
    echo "no program $program: crates/arbscan/out/arbscan is there after 'rt run' in crates/arbscan" >&2
    exit 1
fi

for kind in "all 4" "all 32" "1x2 4"; do
    read -r markets bytes <<< "$kind"
    here="$folder/$markets-$bytes"
    "$top/bench/lines.py" "$markets" "$bytes" 1 "$here"
    feeds=("$here"/?.feed)
    /usr/bin/time -f %M -o "$here/memory" "$program" once "${feeds[@]}" > "$here/report"
    for run in $(seq "$runs"); do
        perf record -q -e cpu-clock -F 10000 -o "$here/samples.$run" "$program" once "${feeds[@]}" > "$here/again"
        cmp "$here/report" "$here/again"
        perf script -i "$here/samples.$run" -F ip,sym,dso 2> /dev/null >> "$here/symbols"
    done
    echo "$([ "$markets" = all ] && echo "all markets" || echo "the results"), names of $bytes bytes: peak memory $(cat "$here/memory") kB"
    awk '
        NF < 3 { next }
        /kernel|vmlinux/ { part["the kernel"]++; all++; next }
        /libc|ld-linux/ { part["libc (copies, allocations)"]++; all++; next }
        /quote_board::/ { part["quote_board"]++; all++; next }
        $2 ~ /^(core|alloc|std|std_collections|indexmap)::/ { part["maps and lists"]++; all++; next }
        { name = $2; sub(/::.*/, "", name); part[name]++; all++ }
        END { for (name in part) printf "%6.1f %%  %s\n", 100 * part[name] / all, name }
    ' "$here/symbols" | sort -rn | head -16
done
