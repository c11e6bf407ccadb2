#!/bin/sh
# Nanoseconds per cell that is pushed, read in order and read 7,919 apart, through a run store over a file in blocks of 32
# cells, with no cache and with one of 4,096 blocks, beside a plain C program that writes, reads and keeps the same blocks.
# usage: bench/blocks.sh [CELLS]     (at most 1000000; needs rt and cc on the path)
set -eu
top=$(cd "$(dirname "$0")/.." && pwd)
cells=${1:-1000000}
work=$(mktemp -d)
trap 'rm -rf "$work"' EXIT
cc -O2 -o "$work/plain" "$top/bench/blocks.c"
"$top/bench/timed.sh" cola_run_bench "$work/ours" \
    byteorder cola_outside cola_cell cola_device cola_filedev cola_layout cola_run cola_store
for run in 1 2 3; do
    for program in 'ours 0' 'plain 0' 'ours 4096' 'plain 4096'; do
        rm -f "$work/file"
        set -- $program
        "$work/$1" "$work/file" "$cells" "$2" >"$work/out"
        times=$(grep -E '^[0-9]+ [0-9]+ [0-9]+$' "$work/out")
        echo "$1, cache $2:$times" >>"$work/times"
        echo "$1, cache $2: $(grep -E '^(pushed|found|reads) [a-z0-9]' "$work/out" | grep -v order, | tr '\n' ' ')"
    done
done
# Each line has three times from one start, in us; the least of the runs counts.
awk -F: -v cells="$cells" '
{
    split($2, at, " ")
    for (i = 1; i <= 3; i++) {
        t = (at[i] - (i > 1 ? at[i - 1] : 0)) * 1000 / cells
        if (!(($1, i) in least) || t < least[$1, i]) least[$1, i] = t
    }
    if (!($1 in seen)) { seen[$1]; order[++n] = $1 }
}
END {
    printf "%-20s %10s %14s %16s\n", "ns per cell", "pushed", "read in order", "read scattered"
    for (k = 1; k <= n; k++) printf "%-20s %10.0f %14.0f %16.0f\n", order[k], least[order[k], 1], least[order[k], 2], least[order[k], 3]
    for (k = 1; k < n; k += 2) printf "%-20s %10.2f %14.2f %16.2f\n", order[k] " / C", least[order[k], 1] / least[order[k + 1], 1], least[order[k], 2] / least[order[k + 1], 2], least[order[k], 3] / least[order[k + 1], 3]
}' "$work/times"
