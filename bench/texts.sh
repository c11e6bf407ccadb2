#!/usr/bin/env bash
# Seconds of processor that `cola run` takes for puts of distinct keys in random order, and for gets of these in another
# order, in blocks of 32 cells behind caches of 0, 64 and 4,096 blocks:
#
#     bench/texts.sh [LINES [PROGRAM..]]     (200000 lines, and crates/cola/out/cola)
#
# Of several programs, as one built before a change and one built since, all are run in turn on the same texts, and the ratios
# to the first are printed. Their replies are compared. Of RUNS runs (3) the least counts. It means something on an idle
# processor alone.
set -euo pipefail
root=$(cd "$(dirname "$0")/.." && pwd -P)
lines=${1:-200000}
shift || true
[ $# -gt 0 ] || set -- "$root/crates/cola/out/cola"
room=$(mktemp -d)
trap 'rm -rf "$room"' EXIT
order() {
    awk -v many="$lines" -v seed="$1" '
        function draw(below) { seed = (seed * 16807) % 2147483647; return seed % below }
        BEGIN {
            for (at = 0; at < many; at++) key[at] = at
            for (at = many - 1; at > 0; at--) { other = draw(at + 1); held = key[at]; key[at] = key[other]; key[other] = held }
            for (at = 0; at < many; at++) print key[at]
        }'
}
order 20071 | awk '{ printf "put key%08d %d\n", $1, NR }' >"$room/puts"
order 60913 | awk '{ printf "get key%08d\n", $1 }' >"$room/gets"

TIMEFORMAT='%U %S'
for ((run = 0; run < ${RUNS:-3}; run++)); do
    for cache in 0 64 4096; do
        number=0
        for program in "$@"; do
            number=$((number + 1))
            rm -f "$room/store"
            "$program" create "$room/store" --keys "$lines" --block 5
            for text in puts gets; do
                { time "$program" run "$room/store" --cache $cache <"$room/$text" >"$room/out"; } 2>"$room/took"
                echo "$number $cache $text $(cat "$room/took")" >>"$room/times"
                sum=$(cksum <"$room/out")
                [ "$sum" = "$(cat "$room/$text.sum" 2>/dev/null || echo "$sum" | tee "$room/$text.sum")" ] ||
                    { echo "texts: $program answers the $text in its own way" >&2; exit 1; }
            done
        done
    done
done
awk -v many=$# '
    { took = $4 + $5; at = $1 " " $2 " " $3; if (!(at in least) || took < least[at]) least[at] = took }
    END {
        split("0 64 4096", caches, " ")
        split("puts gets", texts, " ")
        for (text = 1; text <= 2; text++) for (cache = 1; cache <= 3; cache++) {
            row = sprintf("%s, cache %s:", texts[text], caches[cache])
            first = least["1 " caches[cache] " " texts[text]]
            for (number = 1; number <= many; number++) {
                took = least[number " " caches[cache] " " texts[text]]
                row = row sprintf(" %.2f s", took) (number > 1 ? sprintf(" (%.2f)", took / first) : "") sprintf(", %.2f of cache 0;", took / least[number " 0 " texts[text]])
            }
            print row
        }
    }' "$room/times"
