#!/usr/bin/env bash
# Cell accesses of a row of a range, beside the least that the runs allow, by counts and not by time:
#
#     bench/rows.sh [KEYS [RANGES [ROWS]]]        (20000 keys, 400 ranges of 100 rows)
#
# KEYS distinct keys are put in an order of their own, in blocks of 32 cells; then RANGES ranges of ROWS rows are asked for, and as
# many of none, each text under callgrind, which counts how often a cell is read (`RunStore::read_by`). What the ranges of no row
# read is the seek, without the cells that it looks at where they lie. The least is each cell of the visible runs once: their lengths
# stand in the header. It wants the built program (COLA names another one) and valgrind.
set -euo pipefail
root=$(cd "$(dirname "$0")/.." && pwd -P)
keys=${1:-20000} ranges=${2:-400} rows=${3:-100}
program=${COLA:-$root/crates/cola/out/cola}
room=$(mktemp -d)
trap 'rm -rf "$room"' EXIT
"$program" create "$room/store" --keys "$keys" --block 5
awk -v many="$keys" 'BEGIN { for (at = 0; at < many; at++) printf "put key%08d %d\n", (at * 40503 + 7) % many, at }' | "$program" run "$room/store" >/dev/null
# the visible lengths, five numbers of 32 bits for each level from byte 48 on; the last level stands in byte 13
bottom=$(od -An -tu1 -j13 -N1 "$room/store" | tr -d ' ')
cells=$(od -An -tu4 -v -w20 -j48 -N $((20 * (bottom + 1))) "$room/store" | awk '{ sum += $1 } END { print sum }')
# reads ROWS: how often ranges of so many rows read a cell
reads() {
    awk -v many="$keys" -v ranges="$ranges" -v rows="$1" 'BEGIN { for (it = 0; it < ranges; it++) { at = (it * 7919) % (many - rows); printf "range key%08d key%08d\n", at, at + rows } }' >"$room/text"
    valgrind --tool=callgrind --callgrind-out-file="$room/counts" "$program" run "$room/store" --cache 4096 <"$room/text" >"$room/out" 2>"$room/err"
    [ "$(grep -c '^row' "$room/out")" -eq $((ranges * $1)) ] || { echo 'rows: a range has other rows' >&2; exit 1; }
    awk '
        /^cfn=/ { if (match($0, /\([0-9]+\)/)) called = substr($0, RSTART, RLENGTH); if ($0 ~ /RunStore::read_by/) wanted[called] = 1 }
        /^fn=/ && /RunStore::read_by/ { match($0, /\([0-9]+\)/); wanted[substr($0, RSTART, RLENGTH)] = 1 }
        /^calls=/ { split(substr($0, 7), part, " "); count[called] += part[1] }
        END { for (it in wanted) sum += count[it]; print sum + 0 }' "$room/counts"
}
all=$(reads "$rows")
seeks=$(reads 0)
awk -v all="$all" -v seeks="$seeks" -v ranges="$ranges" -v rows="$rows" -v cells="$cells" -v keys="$keys" -v levels=$((bottom + 1)) 'BEGIN {
    least = cells / keys
    printf "%d keys in %d levels; the runs have %.3f cells a key\n", keys, levels, least
    printf "a row behind it: %.3f cell accesses, %.2f times the least\n", (all - seeks) / ranges / rows, (all - seeks) / ranges / rows / least
}'
