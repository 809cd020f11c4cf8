#!/usr/bin/env bash
# Compares the findings of `once` with two exact linear programming solvers of others, on made sheets. It is no part of the
# gate. `solvers.py` makes the sheets, and for each a program whose optimum, the level, is 1 if some stakes gain at each final
# score and lose at no abandonment, and else 0. It settles the bets by itself. The finding must be `coherent` at level 0, and
# `arb`, `thin` or `narrow` at level 1. A `wide` or an `out-of-pivots` says nothing of the level: these are counted. Fails at
# the first difference, between the solvers too, and keeps its sheet.
#
#     bench/solvers.sh [SHEETS] [PROGRAM]     320 sheets and crates/arbscan/out/arbscan if not given: a few minutes
#
# It needs `python3`, `glpsol` and `esolver`. Debian has them as: apt-get install python3 glpk-utils qsopt-ex
set -eu
export LC_ALL=C
top=$(cd "$(dirname "$0")/.." && pwd)
sheets=${1:-320}
program=$(realpath -m "${2:-$top/crates/arbscan/out/arbscan}")

for needed in glpsol esolver "$program"; do
    if ! command -v "$needed" > /dev/null; then
        echo "no program $needed: see the head of $0, and for arbscan 'rt run' in crates/arbscan" >&2
        exit 1
    fi
done

folder=$(mktemp -d)
"$top/bench/solvers.py" "$sheets" "$folder"

wrong() {
    echo "$1: $sheet" >&2
    exit 1
}

for sheet in "$folder"/*; do
    "$program" once "$sheet"/*.feed > "$sheet/report" || wrong "the program ended with status $?"
    finding=$(awk '$1 == "finding" { print $2 }' "$sheet/report")
    # Both print whole values of the exact optimum as they are.
    glpsol --exact --noscale --lp "$sheet/program.lp" -w "$sheet/glpsol" > "$sheet/glpsol.log" || wrong "glpsol failed"
    glpsol=$(awk '$1 == "s" { print $5 $6, $7 }' "$sheet/glpsol")
    esolver -L -O "$sheet/esolver.sol" "$sheet/program.lp" > "$sheet/esolver.log" 2>&1 || wrong "esolver failed"
    esolver=$(awk '/^status OPTIMAL/ { best = "ff" } $1 == "Value" { print best, $3 }' "$sheet/esolver.sol")
    [ "$glpsol" = "$esolver" ] || wrong "glpsol found $glpsol, and esolver $esolver"
    case "$finding $glpsol" in
        "coherent ff 0" | "arb ff 1" | "thin ff 1" | "narrow ff 1") ;;
        "wide ff 0" | "out-of-pivots ff 0" | "wide ff 1" | "out-of-pivots ff 1") ;;
        *) wrong "the finding is $finding, and the level $glpsol" ;;
    esac
    echo "level ${glpsol#ff }: $finding" >> "$folder/counts"
done

echo "sheets on which glpsol and esolver found the same level, by the finding of the program:"
sort "$folder/counts" | uniq -c
rm -rf "$folder"
