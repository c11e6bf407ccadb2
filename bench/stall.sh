#!/usr/bin/env bash
# The longest wait under load: a log collector (bench/stall.cpp) on each store, in three tables that keep the same in each row:
#
#     bench/stall.sh [KEYS [RATE [SECONDS]]]        (1000000 lines kept, 8000 lines a second, 240 seconds)
#     bench/stall.sh --ycsb [RECORDS [CALLS]]       (YCSB's core workloads, bench/ycsb.cpp: 1000000 records, 1000000 calls)
#
# It wants a C++ compiler and the library (make library builds it; LIBRARY names another folder that has libcola.a). A peer whose
# headers are not there is skipped and named (Debian: libleveldb-dev librocksdb-dev liblmdb-dev libsqlite3-dev libtkrzw-dev). It
# means something on an idle machine alone, below whose TMPDIR there is a disk.
set -euo pipefail
root=$(cd "$(dirname "$0")/.." && pwd -P)
program=stall
[ "${1-}" != --ycsb ] || { program=ycsb; shift; }
room=$(mktemp -d)
trap 'rm -rf "$room"' EXIT
cd "$root"
library=${LIBRARY:-out/lib}
[ -n "${LIBRARY:-}" ] || make -s -f bindings/c/library.mk library

stores=()
# add DEFINE HEADER LIBRARIES KEEPS TITLE: compiles the driver for a store, where its header is there. KEEPS are the tables it is in.
add() {
    if ! printf '#include <%s>\n' "$2" | c++ -std=c++17 -Iinclude -Ibindings/c -E -x c++ - >/dev/null 2>&1; then
        echo "skipped: $5 ($2 is not installed)"
        return
    fi
    c++ -O2 -std=c++17 -Iinclude -Ibindings/c -D"$1" -o "$room/$1" "bench/$program.cpp" $3 -lpthread
    stores+=("$1|$4|$5")
}
add COLA cola_file.h "$library/libcola.a" '0 1 2' cola
add LEVELDB leveldb/db.h -lleveldb '0 1 2' LevelDB
add ROCKSDB rocksdb/db.h -lrocksdb '0 1 2' RocksDB
add LMDB lmdb.h -llmdb '0 1 2' LMDB
add SQLITE sqlite3.h -lsqlite3 '0 1 2' SQLite
add TKRZW tkrzw_dbm_tree.h -ltkrzw 0 Tkrzw # (a put may lie in the memory of the process)

kept=('nothing is promised' 'each answered put outlives the process' 'and the machine, but for the last second')
# run KEEPS WORDS..: the lines of each store for these words, each with its title before it. (LevelDB is set alike where nothing is
# promised and where puts outlive the process: one run is both.)
run() {
    local keeps=$1 it define tables title
    shift
    for it in "${stores[@]}"; do
        IFS='|' read -r define tables title <<<"$it"
        [[ " $tables " == *" $keeps "* ]] || continue
        if [ "$define $keeps" != 'LEVELDB 1' ] || ! mv "$room/LEVELDB.lines" "$room/lines" 2>/dev/null; then
            "$room/$define" "$room/store" "$@" "$keeps" >"$room/lines"
        fi
        sed "s/^/$title|/" "$room/lines"
        [ "$define $keeps" != 'LEVELDB 0' ] || mv "$room/lines" "$room/LEVELDB.lines"
        rm -rf "$room/store"*
    done
}
# shown: lines as rows of a table.
shown() { awk -F '|' '{ split($2, n, " "); printf "| %s | %s | %d | %.2f | %.1f | %.1f | %.1f |\n", $1, n[1], n[2], n[3], n[4], n[5], n[6] }'; }

if [ $program = stall ]; then
    keys=${1:-1000000} rate=${2:-8000} seconds=${3:-240}
    for keeps in 0 1 2; do
        printf '\n## Waits under load: %s\n\n| store | call | calls | median, us | 99.9th | 99.99th | worst |\n|---|---|---:|---:|---:|---:|---:|\n' "${kept[keeps]}"
        run "$keeps" "$keys" "$rate" "$seconds" | shown
    done
else
    records=${1:-1000000} calls=${2:-1000000}
    run 1 "$records" "$calls" ABCFD >"$room/all"
    run 1 "$records" "$calls" E >>"$room/all"
    for workload in A B C D E F; do
        printf '\n## YCSB %s: %s\n\n| store | call | calls | median, us | 99.9th | 99.99th | worst |\n|---|---|---:|---:|---:|---:|---:|\n' "$workload" "${kept[1]}"
        sed -n "s/|$workload /|/p" "$room/all" >"$room/lines"
        grep -v '|calls ' "$room/lines" | shown
        awk -F '|' '/\|calls / { split($2, n, " "); printf "%s%s %d", (many++ ? ", " : "\nCalls a second: "), $1, n[2] } END { print "." }' "$room/lines"
    done
fi
