#!/usr/bin/env bash
# Times puts and gets by calls of the library beside LMDB, LevelDB, RocksDB, SQLite and Tkrzw by theirs, in one run:
#
#     bench/library.sh [COUNT [ROUNDS]]        (1000000 keys, 3 rounds)
#
# Each store is one process for each text: COUNT keys in random order, and in rising order (bench/library.cpp). A put of cola
# answers whether its key was there: so a peer looks the key up before it puts, and beside these rows are those of its puts
# alone. A cola is mapped, and then resident, logged, and synced, which is by calls of 1,000 rows alone. With many rows at once
# a call is one of 1,000 rows; from Python it is update and get_many beside single calls (bench/library.py). It prints a table
# with the seconds, passed and of processor, their ratios to those of LevelDB with look-ups, the median, the 99.9th and 99.99th
# percentile and the worst call, and the peak memory; then what became of the aims, the rate of puts that are on the disk when their call ends,
# alone and by 100 (fewer keys; LevelDB by a batch, LMDB and SQLite by a transaction), how long all rows take both ways, how long
# an opening takes that makes a log again, and what checkpoints of the resident store take (bench/checkpoints.c). It wants a C++
# compiler and the library (make library builds it; LIBRARY names another folder that has libcola.a, and libcola.so.1 for
# Python). The last row of a table is what the cells alone take that the calls of cola read and move, without its code
# (bench/accesses.c, the least of the rounds). A peer whose headers are not there is skipped and named (Debian: libleveldb-dev
# liblmdb-dev librocksdb-dev libsqlite3-dev libtkrzw-dev). It takes minutes and a gigabyte below TMPDIR, and means something on an idle machine
# alone.
set -euo pipefail
root=$(cd "$(dirname "$0")/.." && pwd -P)
count=${1:-1000000} rounds=${2:-3}
room=$(mktemp -d)
trap 'rm -rf "$room"' EXIT
cd "$root"
library=${LIBRARY:-out/lib}
[ -n "${LIBRARY:-}" ] || make -s -f bindings/c/library.mk library

stores=()
# add NAME DEFINE HEADER LIBRARIES BATCH WORK TITLE: compiles the driver for a store, where its header is there.
add() {
    if ! printf '#include <%s>\n' "$3" | c++ -std=c++17 -Iinclude -Ibindings/c -E -x c++ - >/dev/null 2>&1; then
        echo "skipped: $7 ($3 is not installed)"
        return
    fi
    [ -e "$room/$2" ] || c++ -O2 -std=c++17 -Iinclude -Ibindings/c -D"$2" -o "$room/$2" bench/library.cpp $4 -lpthread
    stores+=("$1|$2|$5|$6|$7")
}
# on_disk NAME DEFINE LIBRARIES BATCH WORK PART TITLE: the driver for a store that is synced at each call of BATCH rows, with one key in PART.
on_disk() {
    [ -e "$room/$2" ] || return 0
    c++ -O2 -std=c++17 -Iinclude -Ibindings/c -D"$2" -DSYNCED=1 -DROWS="${4##* }" -o "$room/$1" bench/library.cpp $3 -lpthread
    synced+=("$1|${4%% *}|$5|$6|$7")
}
# peer NAME DEFINE HEADER LIBRARIES BATCH TITLE: the same, with look-ups and without.
peer() {
    add "$1" "$2" "$3" "$4" "$5" looked "$6"
    add "$1-blind" "$2" "$3" "$4" "$5" blind "$6, puts alone"
}
add cola-5 COLA cola_file.h "$library/libcola.a" 5 blind 'cola, block 5'
add cola-9 COLA cola_file.h "$library/libcola.a" 9 blind 'cola, block 9'
add cola-many COLA cola_file.h "$library/libcola.a" 5 many 'cola, block 5, 1,000 rows a call'
add cola-resident COLA cola_file.h "$library/libcola.a" 5 'blind 2' 'cola, block 5, resident'
add cola-logged COLA cola_file.h "$library/libcola.a" 5 'blind 4' 'cola, block 5, logged'
add cola-synced COLA cola_file.h "$library/libcola.a" 5 'many 8' 'cola, block 5, synced, 1,000 rows a call'
peer leveldb LEVELDB leveldb/db.h -lleveldb 1 'LevelDB'
peer lmdb LMDB lmdb.h -llmdb 1 'LMDB'
peer lmdb-1000 LMDB lmdb.h -llmdb 1000 'LMDB, 1,000 puts a transaction'
peer sqlite SQLITE sqlite3.h -lsqlite3 1 'SQLite'
peer sqlite-1000 SQLITE sqlite3.h -lsqlite3 1000 'SQLite, 1,000 puts a transaction'
peer rocksdb ROCKSDB rocksdb/db.h -lrocksdb 1 'RocksDB'
peer tkrzw TKRZW tkrzw_dbm_tree.h -ltkrzw 1 'Tkrzw'
synced=()
for rows in 1 100; do
    part=$((rows == 1 ? 500 : 10)) each=$([ "$rows" -eq 1 ] && echo 'each' || echo "by $rows")
    on_disk "cola-disk-$rows" COLA "$library/libcola.a" "5 $rows" 'many 8' "$part" "cola, $each"
    on_disk "leveldb-disk-$rows" LEVELDB -lleveldb "$rows" blind "$part" "LevelDB, $each"
    on_disk "rocksdb-disk-$rows" ROCKSDB -lrocksdb "$rows" blind "$part" "RocksDB, $each"
    on_disk "lmdb-disk-$rows" LMDB -llmdb "$rows" blind "$part" "LMDB, $each"
    on_disk "sqlite-disk-$rows" SQLITE -lsqlite3 "$rows" blind "$part" "SQLite, $each"
done

cc -O2 -o "$room/accesses" bench/accesses.c
cc -O2 -Iinclude -Ibindings/c -o "$room/checkpoints" bench/checkpoints.c "$library/libcola.a"

for order in random rising; do
    for it in "${stores[@]}"; do
        IFS='|' read -r name define batch work title <<<"$it"
        "$room/$define" "$room/$name.store" "$count" "$rounds" "$order" "$batch" $work >"$room/$order.$name"
        rm -rf "$room/$name.store"*
        echo "$title|$(cat "$room/$order.$name")" >>"$room/$order"
    done
    [ "$(awk '{ print $NF }' "$room/$order" | sort -u | wc -l)" -eq 1 ] || { echo 'library: two stores have other values' >&2; exit 1; }
    printf '\n| %s keys in %s order | puts and gets, seconds | beside LevelDB | of processor | beside LevelDB | put: median, 99.9th, 99.99th, worst, us | get: median, 99.9th, 99.99th, worst, us | memory, MiB |\n' "$count" "$order"
    printf '|---|---:|---:|---:|---:|---:|---:|---:|\n'
    cells=$(for ((round = 0; round < rounds; round++)); do "$room/accesses" "$count" "$order"; done | sort -n | head -n 1)
    awk -F '[|]' -v cells="$cells" '
        { split($2, n, " "); title[NR] = $1; both[NR] = n[1] + n[7]; used[NR] = n[2] + n[8]; if ($1 == "LevelDB") level = NR
          text[NR] = sprintf("%.2f + %.2f | %%s | %.2f + %.2f | %%s | %s | %s | %.1f", n[1], n[7], n[2], n[8], waits(3), waits(9), n[13] / 1024) }
        function waits(at) { return sprintf("%.2f, %.1f, %.1f, %.0f", n[at] / 1e3, n[at + 1] / 1e3, n[at + 2] / 1e3, n[at + 3] / 1e3) }
        function beside(it) { return level ? sprintf("%.2f", it) : "" }
        END { for (at = 1; at <= NR; at++) printf("| %s | " text[at] " |\n", title[at], beside(both[at] / both[level]), beside(used[at] / used[level]))
            split(cells, alone, " ")
            printf("| the cells of cola alone, in C | %.2f + %.2f | %s | | | | | |\n", alone[1], alone[2], beside((alone[1] + alone[2]) / both[level])) }' "$room/$order"
done
echo
for order in random rising; do
    awk -F '[|]' -v order="$order" '
        # part OF THAT: how much the one takes of the other.
        function part(of, that) { return sprintf("%.2f", both[of] / both[that]) }
        { split($2, n, " "); both[$1] = n[1] + n[7]; worst[$1] = n[6]; median[$1] = n[3]; rare[$1] = n[5]; got[$1] = n[12]
          if ($1 !~ /^cola/ && (best == "" || n[12] < got[best])) best = $1 }
        END {
            for (block = 5; block <= 9; block += 4) {
                it = "cola, block " block
                if (!("LevelDB" in both)) continue
                printf "The text of keys in %s order takes %s of the time of LevelDB with look-ups, ", order, part(it, "LevelDB")
                printf "and %s of that of its puts alone (%s).\n", part(it, "LevelDB, puts alone"), it
            }
            it = "cola, block 5, 1,000 rows a call"
            printf "By 1,000 rows a call it takes %s of the time of single calls in %s order.\n", part(it, "cola, block 5"), order
            if ("LMDB" in both) printf "The worst put in %s order takes %.2f of that of LMDB (the aim: 0.1).\n", order, worst["cola, block 5"] / worst["LMDB"]
            if ("Tkrzw" in both) printf "The worst put of a resident store in %s order takes %.2f of that of Tkrzw (the aim: 0.6).\n", order, worst["cola, block 5, resident"] / worst["Tkrzw"]
            it = "cola, block 5, resident"
            printf "99.99%% of the puts of a resident store in %s order take at most %.1f times their median (the aim: 3).\n", order, rare[it] / median[it]
            if (best != "") printf "The worst get of a resident store in %s order takes %.2f of that of %s, the best of the peers (the aim: 0.5).\n", order, got[it] / got[best], best
            it = "cola, block 5, logged"
            if ("LMDB" in both) printf "The worst logged put in %s order takes %.3f of that of LMDB (the aim: 0.02).\n", order, worst[it] / worst["LMDB"]
            if ("LevelDB" in both) printf "The worst logged put in %s order takes %.2f of that of LevelDB (the aim: 0.5).\n", order, worst[it] / worst["LevelDB, puts alone"]
        }' "$room/$order"
done
printf '\n| Puts that are on the disk when a call ends, keys in random order | puts | a second | worst call, ms |\n|---|---:|---:|---:|\n'
for it in "${synced[@]}"; do
    IFS='|' read -r name batch work part title <<<"$it"
    keys=$((count / part))
    "$room/$name" "$room/$name.store" "$keys" 1 random "$batch" $work | awk -v keys="$keys" -v title="$title" \
        '{ printf("| %s | %d | %.0f | %.1f |\n", title, keys, keys / $1, $5 / 1e6) }'
    rm -rf "$room/$name.store"*
done
printf '\n| all rows of %s keys, put in random order | forwards, seconds | backwards | beside forwards |\n|---|---:|---:|---:|\n' "$count"
for it in "${stores[@]}"; do
    IFS='|' read -r name define batch work title <<<"$it"
    case $name in cola-5 | cola-9 | leveldb | lmdb) ;; *) continue ;; esac
    rows=$("$room/$define" "$room/$name.store" "$count" "$rounds" random "$batch" rows)
    rm -rf "$room/$name.store"*
    awk -v title="$title" '{ printf("| %s | %.3f | %.3f | %s |\n", title, $1, $2, $1 > 0 ? sprintf("%.2f", $2 / $1) : "") }' <<<"$rows"
done
read -r puts again < <("$room/COLA" "$room/again.store" "$count" "$rounds" random 5 replay 4)
rm -rf "$room/again.store"*
printf '\nLogged puts of %s keys in random order take %s seconds, and an opening that makes them again %s.\n\n' "$count" "$puts" "$again"
if [ -e "$library/libcola.so.1" ] && command -v python3 >/dev/null; then
    for order in random rising; do
        COLA_LIBRARY=$library/libcola.so.1 PYTHONPATH=bindings/python PYTHONDONTWRITEBYTECODE=1 \
            python3 bench/library.py "$room/python.store" "$count" "$rounds" "$order"
    done
else
    echo 'skipped: many rows at once from Python (there is no python3, or no libcola.so.1)'
fi
printf '\n| Checkpoints of %s keys, resident, behind so many puts | pages | ms | of a copy |\n|---:|---:|---:|---:|\n' "$count"
"$room/checkpoints" "$room/resident" "$count"
