#!/usr/bin/env bash
# Times `cola run`, LMDB and SQLite on files that do not fit in memory, in one run:
#
#     bench/pages.sh [MEBIBYTES [LINES [SECONDS]]]        (16, 1,000,000 and 180)
#
# Each store runs in a memory control group of so many MiB: what the process holds and the pages of its files in the system's
# cache together. The text is puts of LINES distinct keys in random order; a store that takes longer than SECONDS is stopped. Behind
# one that has ended, and an emptied cache, a twentieth of the keys is asked for in another order, and the replies are compared. It
# prints how many lines were answered, the seconds that passed and the processor's, and the KiB that a line read from the disk and
# will have written to it. It wants root, control groups of version 1 or 2, the built program (COLA names another one), a C and a
# C++ compiler, and the peers' libraries (Debian: liblmdb-dev libsqlite3-dev); it empties the machine's cache of pages before each
# text. STORES picks stores by the beginnings of their names.
set -euo pipefail
root=$(cd "$(dirname "$0")/.." && pwd -P)
limit=${1:-16} lines=${2:-1000000} most=${3:-180}
program=${COLA:-$root/crates/cola/out/cola}
keys=$((lines < 1048576 ? 1048576 : lines))
room=$(mktemp -d -p "${TMPDIR:-/var/tmp}")
if [ -e /sys/fs/cgroup/cgroup.controllers ]; then group=/sys/fs/cgroup/cola-pages bound=memory.max
else group=/sys/fs/cgroup/memory/cola-pages bound=memory.limit_in_bytes
fi
mkdir -p "$group"
trap 'rm -rf "$room"; rmdir "$group"' EXIT
echo $((limit << 20)) >"$group/$bound"
cc -O2 -o "$room/driver" "$root/bench/driver.c" -lm

stores=()
add() {
    local begin
    for begin in ${STORES:-cola lmdb sqlite}; do case $1 in "$begin"*) stores+=("$1|$2|$3") ;; esac; done
}
for block in 5 7 9; do
    for cache in 0 $((limit << 18 >> (block + 6))); do
        [ $cache -le 4096 ] || cache=4096
        add "cola-$block-$cache" "cola, block $block, cache $cache" -
    done
done
peer() {
    printf '#include <%s>\n' "$3" | c++ -E -x c++ - >/dev/null 2>&1 || { echo "skipped: $1 ($3 is not installed)"; return 1; }
    c++ -O2 -std=c++17 -D"$2" -o "$room/$1" "$root/bench/peers.cpp" "$4" -lpthread
}
if peer lmdb LMDB lmdb.h -llmdb; then add lmdb LMDB lmdb; add lmdb-1000 'LMDB, 1,000 puts a transaction' 'lmdb 1000'; fi
if peer sqlite SQLITE sqlite3.h -lsqlite3; then add sqlite-1000 'SQLite, 1,000 puts a transaction' 'sqlite 1000'; fi

order() {
    awk -v many="$lines" -v seed="$1" '
        function draw(below) { seed = (seed * 16807) % 2147483647; return seed % below }
        BEGIN {
            for (at = 0; at < many; at++) key[at] = at
            for (at = many - 1; at > 0; at--) { other = draw(at + 1); held = key[at]; key[at] = key[other]; key[other] = held }
            for (at = 0; at < many; at++) print key[at]
        }'
}
order 20071 | awk '{ printf "put key%08d %d\n", $1, NR }' >"$room/puts"

order 60913 | awk -v many=$((lines / 20)) 'NR <= many { printf "get key%08d\n", $1 }' >"$room/gets"

printf '%s MiB for a store and the cached pages of its file, %s lines, %s, load %s\n\n' "$limit" "$lines" "$(uname -sr)" "$(cut -d ' ' -f 1-3 /proc/loadavg)"
echo '| store | puts: lines | seconds | of processor | KiB read a line | KiB written | gets: seconds | KiB read a line | file MiB |'
echo '|---|---:|---:|---:|---:|---:|---:|---:|---:|'
# timed TEXT: runs the command in the group on a text, behind an emptied cache.
timed() {
    sync && echo 3 >/proc/sys/vm/drop_caches
    (echo $BASHPID >"$group/cgroup.procs" && MOST=$most exec "$room/driver" run "$room/$1" "$room/out" "${command[@]}") >"$room/$1.took" || true
}
for it in "${stores[@]}"; do
    IFS='|' read -r name title words <<<"$it"
    rm -rf "$room/at" && mkdir "$room/at"
    case $name in
    cola-*)
        IFS=- read -r _ block cache <<<"$name"
        "$program" create "$room/at/store" --keys "$keys" --block "$block"
        command=("$program" run "$room/at/store" --cache "$cache")
        ;;
    *) read -r binary batch <<<"$words"; command=("$room/$binary" "$room/at/store" ${batch:+"$batch"}) ;;
    esac
    timed puts
    answered=$(wc -l <"$room/out")
    : >"$room/gets.took"
    if [ "$answered" -eq "$lines" ]; then
        timed gets
        sum=$(cksum <"$room/out")
        [ "$sum" = "$(cat "$room/sum" 2>/dev/null || echo "$sum" | tee "$room/sum")" ] || { echo "pages: $title has other values" >&2; exit 1; }
    fi
    paste -d ' ' "$room/puts.took" "$room/gets.took" | awk -v title="$title" -v many="$answered" -v gets=$((lines / 20)) -v file="$(du -sm "$room/at" | cut -f 1)" '{
        printf "| %s | %d | %.1f | %.1f | %.2f | %.2f | %s | %s | %d |\n", title, many, $1, $2 + $3, $10 / many / 1024, $11 / many / 1024, $12 == "" ? "" : sprintf("%.1f", $12), $12 == "" ? "" : sprintf("%.2f", $21 / gets / 1024), file
    }'
done
