#!/usr/bin/env bash
# Which share of made sheets ends with each kind of finding. It is no part of the gate.
#
#     bench/shares.sh [SHEETS] [PROGRAM ..]     20 sheets of each size, and crates/arbscan/out/arbscan, if not given
#
# `sheets.py` makes the sheets: 64, 128 and 256 offers with lines of all kinds near the fair odds, in steps of 0.01 and of
# 0.05. More programs, such as one of an older commit, are counted side by side on the same sheets.
set -eu
export LC_ALL=C
top=$(cd "$(dirname "$0")/.." && pwd)
sheets=${1:-20}
[ "$#" -gt 0 ] && shift
[ "$#" -gt 0 ] || set -- "$top/crates/arbscan/out/arbscan"

folder=$(mktemp -d)
trap 'rm -rf "$folder"' EXIT
for grain in 10 50; do
    for offers in 64 128 256; do
        for seed in $(seq "$sheets"); do
            mkdir -p "$folder/$seed"
            "$top/bench/sheets.py" "$offers" "$seed" "$grain" "$folder/$seed"
        done
        for program in "$@"; do
            start=$(date +%s%N)
            for seed in $(seq "$sheets"); do
                "$program" once "$folder/$seed"/*.feed | awk '$1 == "finding" { print $2 }'
            done | sort | uniq -c | awk '{ printf "  %s %d", $2, $1 }' > "$folder/counts"
            time=$(( ($(date +%s%N) - start) / 1000000 / sheets ))
            printf '%3d offers in steps of 0.%03d:%s, %d ms a sheet (%s)\n' "$offers" "$grain" "$(cat "$folder/counts")" "$time" "$program"
        done
        rm -rf "$folder"/*
    done
done
