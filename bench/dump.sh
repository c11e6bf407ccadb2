#!/usr/bin/env bash
# Times a dump and a load of a store beside those of SQLite and LMDB, on the same rows, in one run:
#
#     bench/dump.sh [ROWS]        (1000000)
#
# The rows are made keys in rising order with short values. Each store is loaded from text and dumped to text, five times in
# turn, and the least time counts. `cola load` and a `scan` stand beside `sqlite3 .import` and a `select`, and `mdb_load -T` and
# `mdb_dump -p`, where these are installed (Debian: sqlite3 lmdb-utils). It prints a table, and the bytes that a load wrote
# beside the bytes of its file's cells. It wants the built program (COLA names another one), and means something on an idle
# machine alone.
set -euo pipefail
root=$(cd "$(dirname "$0")/.." && pwd -P)
rows=${1:-1000000}
rounds=5
program=${COLA:-$root/crates/cola/out/cola}
room=$(mktemp -d)
trap 'rm -rf "$room"' EXIT
[ -n "${COLA:-}" ] || "$root/cola" mem 1 </dev/null
cd "$room"

# The same rows in each form: a line of cola, a row of a table, two lines of LMDB's text.
awk -v rows="$rows" 'BEGIN { for (i = 0; i < rows; i++) printf "row key%09d value%d\n", i, i; print "end " rows }' >cola.text
sed '$d; s/^row //; s/ /\t/' cola.text >sqlite.text
{
    printf 'VERSION=3\nformat=print\ntype=btree\nmapsize=1073741824\nHEADER=END\n'
    sed '$d; s/^row \([^ ]*\) \(.*\)/ \1\n \2/' cola.text
    echo DATA=END
} >lmdb.text

# seconds COMMAND..: the time that it takes, in seconds.
seconds() {
    local begin
    begin=$(date +%s.%N)
    "$@" || { echo "dump: $* failed" >&2; exit 1; }
    awk -v a="$begin" -v b="$(date +%s.%N)" 'BEGIN { printf "%.2f", b - a }'
}

cola_load() { rm -f cola.store; "$program" load cola.store --keys "$rows" --block 9 <cola.text >/dev/null; sync cola.store; }
cola_dump() { printf 'scan ! %s\n' "$rows" | "$program" run cola.store >cola.dumped; }
sqlite_load() {
    rm -f sqlite.store
    sqlite3 -batch sqlite.store 'create table t (k text primary key, v text) without rowid' '.mode tabs' '.import sqlite.text t'
}
sqlite_dump() { sqlite3 -batch -separator "$(printf '\t')" sqlite.store 'select k, v from t order by k' >sqlite.dumped; }
lmdb_load() { rm -rf lmdb.store; mdb_load -n -T -f lmdb.text lmdb.store 2>/dev/null || mdb_load -n -f lmdb.text lmdb.store; }
lmdb_dump() { mdb_dump -n -p lmdb.store >lmdb.dumped; }

stores=(cola)
for it in sqlite:sqlite3 lmdb:mdb_load; do
    if command -v "${it#*:}" >/dev/null; then stores+=("${it%:*}"); else echo "skipped: ${it%:*} (${it#*:} is not installed)"; fi
done
declare -A least
for ((round = 0; round < rounds; round++)); do
    for store in "${stores[@]}"; do
        for what in load dump; do
            took=$(seconds "${store}_$what")
            key=$store-$what
            least[$key]=$(awk -v a="${least[$key]:-999999}" -v b="$took" 'BEGIN { print b < a ? b : a }')
        done
    done
done
cmp -s <(sed '$d; s/^row //; s/ /\t/' cola.dumped) sqlite.text || { echo 'dump: what cola dumped is not what was loaded' >&2; exit 1; }
printf '| %s rows | load, seconds | beside cola | dump, seconds | beside cola |\n|---|---:|---:|---:|---:|\n' "$rows"
for store in "${stores[@]}"; do
    awk -v s="$store" -v l="${least[$store-load]}" -v d="${least[$store-dump]}" -v cl="${least[cola-load]}" -v cd="${least[cola-dump]}" \
        'BEGIN { printf "| %s | %s | %.2f | %s | %.2f |\n", s, l, l / cl, d, d / cd }'
done
# (the system's count of bytes written; the file's cells are 8 for each 7 rows, of 64 bytes)
rm -f cola.store
"$program" load cola.store --keys "$rows" --block 9 <cola.text >/dev/null &
running=$!
while kill -0 "$running" 2>/dev/null; do
    wrote=$(awk '/^wchar:/ { print $2 }' "/proc/$running/io" 2>/dev/null) && [ -n "$wrote" ] && last=$wrote
    sleep 0.01
done
awk -v w="${last:-0}" -v n="$rows" 'BEGIN { printf "a load wrote %d bytes at least, %.3f for each byte of its rows at 64 bytes a cell\n", w, w / (64 * n) }'
