#!/usr/bin/env bash
# Times `cola mem N` beside a plain Rust program over BTreeMap (bench/baseline.rs), in one run:
#
#     bench/mem.sh [LINES [ROUNDS]]        (1,000,000 lines and 3 rounds)
#
# A workload is LINES lines, each a put or a get, as a coin falls, of a key drawn from 1,000 or from
# 60,000. Both programs read the same file and write to a file, and their outputs are compared. Each
# runs ROUNDS times, in turn, and the run with the least processor time counts. The plain program reads
# and writes 64 KiB at a time; beside it the same program is timed as it writes every reply at once.
# (cola writes the replies to 512 bytes that it has read before it reads more.)
#
# It wants the built program (./cola builds it), rustc, awk and GNU time or python3. The seconds that
# passed mean something on an idle machine alone; the processor's depend less on what else runs.
set -euo pipefail
root=$(cd "$(dirname "$0")/.." && pwd -P)
lines=${1:-1000000} rounds=${2:-3}
program=$root/crates/cola/out/cola
room=$(mktemp -d)
trap 'rm -rf "$room"' EXIT

command -v rustc >/dev/null || { echo 'bench: rustc, for the plain program, is not installed' >&2; exit 1; }
"$root/cola" mem 1 </dev/null
rustc --edition 2021 -O -o "$room/plain" "$root/bench/baseline.rs"

# workload KEYS: the lines, the same in every run.
workload() {
    awk -v lines="$lines" -v keys="$1" '
        function draw() { seed = (seed * 16807) % 2147483647; return seed }
        BEGIN {
            seed = 20071
            for (at = 0; at < lines; at++) {
                key = draw() % keys
                if (draw() % 2) printf "put key%05d %d\n", key, draw()
                else printf "get key%05d\n", key
            }
        }'
}

# timed OUT COMMAND..: prints the seconds that passed, the processor's in the program and in the system,
# and the most memory in KiB.
timed() {
    local out=$1
    shift
    if [ -x /usr/bin/time ]; then
        /usr/bin/time -f '%e %U %S %M' -o "$room/took" "$@" <"$room/lines" >"$out"
        cat "$room/took"
    else
        # (there the memory is at least what python3 itself takes)
        python3 -c '
import os, sys, time
begun = time.monotonic()
child = os.posix_spawn(sys.argv[1], sys.argv[1:], os.environ)
_, status, used = os.wait4(child, 0)
print("%.2f %.2f %.2f %d" % (time.monotonic() - begun, used.ru_utime, used.ru_stime, used.ru_maxrss), file=sys.stderr)
sys.exit(os.waitstatus_to_exitcode(status))' "$@" <"$room/lines" 2>"$room/took" >"$out"
        cat "$room/took"
    fi
}

# compare KEYS LIMIT: one workload, and its lines of the table.
compare() {
    local keys=$1 limit=$2 round
    workload "$keys" >"$room/lines"
    : >"$room/cola.runs"
    : >"$room/plain.runs"
    : >"$room/each.runs"
    for ((round = 0; round < rounds; round++)); do
        timed "$room/cola.out" "$program" mem "$limit" >>"$room/cola.runs"
        timed "$room/plain.out" "$room/plain" "$limit" >>"$room/plain.runs"
        timed "$room/each.out" "$room/plain" "$limit" each >>"$room/each.runs"
        cmp "$room/cola.out" "$room/plain.out"
        cmp "$room/cola.out" "$room/each.out"
    done
    printf '\n%s lines over %s keys, cola mem %s: the outputs are equal (%s bytes)\n' \
        "$lines" "$keys" "$limit" "$(wc -c <"$room/cola.out")"
    printf '%-28s %8s %8s %8s %12s\n' '' 'seconds' 'user' 'system' 'peak KiB'
    for it in cola plain each; do
        awk '{ print $2 + $3, $0 }' "$room/$it.runs" | sort -n | head -n 1 | cut -d ' ' -f 2- >"$room/$it.best"
    done
    printf '%-28s %8s %8s %8s %12s\n' 'cola' $(<"$room/cola.best") \
        'BTreeMap, 64 KiB a write' $(<"$room/plain.best") \
        'BTreeMap, a write a reply' $(<"$room/each.best")
    paste -d ' ' "$room/cola.best" "$room/plain.best" "$room/each.best" | awk '
        function over(a, b) { return b > 0 ? sprintf("%.1f", a / b) : "-" }
        function ratios(name, at) {
            printf "cola / %s: %s in processor time, %s in user time, %s in seconds, %s in memory\n", name,
                over($2 + $3, $(at + 1) + $(at + 2)), over($2, $(at + 1)), over($1, $at), over($4, $(at + 3))
        }
        { ratios("BTreeMap, 64 KiB a write", 5); ratios("BTreeMap, a write a reply", 9) }'
}

uname -sr
grep -m 1 'model name' /proc/cpuinfo | sed 's/.*: //'
printf '%s processors, load %s\n' "$(nproc)" "$(cut -d ' ' -f 1-3 /proc/loadavg)"
rustc --version
compare 1000 1024
compare 60000 65536
