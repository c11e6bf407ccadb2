#!/bin/sh
# Nanoseconds per decode and encode of a cell, beside a plain C program that makes the same checks.
# usage: bench/cells.sh [ROUNDS]     (64 cells a round; needs rt and cc on the path)
set -eu
top=$(cd "$(dirname "$0")/.." && pwd)
rounds=${1:-200000}
work=$(mktemp -d)
trap 'rm -rf "$work"' EXIT
cc -O2 -o "$work/plain" "$top/bench/cells.c"
"$top/bench/timed.sh" cola_cell_bench "$work/ours" byteorder cola_cell
for run in 1 2 3 4 5 6 7; do
    for program in ours plain; do
        "$work/$program" "$rounds" | tail -1 | sed "s/^/$program /" >>"$work/times"
    done
done
# Each line has four times from one start, in us; the least of the runs counts.
awk -v cells="$((rounds * 64))" '
{
    for (i = 1; i <= 4; i++) {
        t = ($(i + 1) - (i > 1 ? $i : 0)) * 1000 / cells
        if (!(($1, i) in least) || t < least[$1, i]) least[$1, i] = t
    }
}
END {
    split("decode one,decode and encode one,decode two,decode and encode two", name, ",")
    printf "%-24s %10s %10s %7s\n", "ns per cell", "cola_cell", "plain C", "ratio"
    for (i = 1; i <= 4; i++)
        printf "%-24s %10.1f %10.1f %7.2f\n", name[i], least["ours", i], least["plain", i], least["ours", i] / least["plain", i]
    for (i = 2; i <= 4; i += 2) {
        a = least["ours", i] - least["ours", i - 1]; b = least["plain", i] - least["plain", i - 1]
        printf "%-24s %10.1f %10.1f %7.2f\n", (i == 2 ? "encode one, the rest" : "encode two, the rest"), a, b, a / b
    }
}' "$work/times"
