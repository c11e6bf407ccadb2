#!/usr/bin/env bash
# A collector of log lines, in a store: each line stands under its time, so that a range gives all lines of a while. The
# collector appends, closes, is started again, and goes on.
#
#     examples/log.sh
set -eu
cola=$(cd "$(dirname "$0")/.." && pwd -P)/cola
room=$(mktemp -d)
trap 'rm -rf "$room"' EXIT

# lines FROM COUNT: so many log lines, one a minute.
lines() {
    awk -v from="$1" -v count="$2" 'BEGIN {
        for (n = from; n < from + count; n++)
            printf "put 2026-03-01T%02d:%02d level=%s,disk=%d\n", n / 60, n % 60, n % 7 ? "info" : "warn", n % 90
    }'
}

"$cola" create "$room/log" --keys 2000 --block 5
lines 0 700 | "$cola" run "$room/log" --cache 64 | sort | uniq -c | sed 's/^ *//'
lines 700 700 | "$cola" run "$room/log" | sort | uniq -c | sed 's/^ *//'
printf '%s\n' count 'range 2026-03-01T11:38 2026-03-01T11:42' 'scan 2026-03-01T23:19 3' | "$cola" run "$room/log"
