#!/usr/bin/env bash
# Times `cola run` beside the stores that a user would pick instead, in one run:
#
#     bench/store.sh [KEYS [LINES [FOLDER]]]        (1048576 keys, 1000000 lines, and bench/ itself)
#
# GROWTH is the greatest power of two of the stores whose growth is measured (24; those above 20 are every second one).
#
# It makes the texts, compiles one plain reader of the same lines (bench/peers.cpp) for each library that is installed, runs every
# store on every text, compares all outputs byte for byte, and times single calls by one driver (bench/driver.c). It writes
# FOLDER/measured.md with all numbers, and the plots FOLDER/*.svg (bench/plots.awk).
#
# It wants the built program (./cola builds it; COLA names another one), a C and a C++ compiler and awk. What else is not there is
# skipped and named: the libraries (Debian: libleveldb-dev librocksdb-dev liblmdb-dev libsqlite3-dev libtkrzw-dev), and rustc and rt for
# bench/mem.sh and bench/cells.sh. STORES picks stores by the beginnings of their names, as STORES='cola-5 leveldb'.
# It takes minutes and a gigabyte below TMPDIR, and means something on an idle machine alone.
set -euo pipefail
root=$(cd "$(dirname "$0")/.." && pwd -P)
keys=${1:-1048576} lines=${2:-1000000} folder=${3:-$root/bench}
rounds=5
program=${COLA:-$root/crates/cola/out/cola}
room=$(mktemp -d)
trap 'rm -rf "$room"' EXIT
[ "$lines" -le "$keys" ] || { echo 'bench: a store for KEYS keys holds LINES keys of each text' >&2; exit 2; }
mkdir -p "$folder" "$room/peers" "$room/texts" "$room/outputs" "$room/points"
say() { printf 'bench: %s\n' "$*" >&2; }
skipped=()
skip() { skipped+=("$*"); say "skipped: $*"; }

[ -n "${COLA:-}" ] || "$root/cola" mem 1 </dev/null
cc -O2 -o "$room/driver" "$root/bench/driver.c" -lm

# The stores: name, title, words of the peer (a dash: cola).
stores=()
wanted() {
    local begin
    for begin in ${STORES:-cola leveldb rocksdb lmdb sqlite tkrzw map echo}; do
        case $1 in "$begin"*) return 0 ;; esac
    done
    return 1
}
add() { if wanted "$1"; then stores+=("$1|$2|$3"); fi; }
for block in 5 7 9; do
    for cache in 0 64 4096; do add "cola-$block-$cache" "cola, block $block, cache $cache" -; done
done
# peer NAME DEFINE PACKAGE HEADER LIBRARY..: compiles the reader for a library.
peer() {
    local name=$1 define=$2 package=$3 header=$4
    shift 4
    wanted "$name" || return 1
    if ! printf '#include <%s>\n' "$header" | c++ -std=c++17 -E -x c++ - >/dev/null 2>&1; then
        skip "$name ($package is not installed)"
        return 1
    fi
    c++ -O2 -std=c++17 -D"$define" -o "$room/peers/$name" "$root/bench/peers.cpp" "$@" -lpthread
}
if peer leveldb LEVELDB libleveldb-dev leveldb/db.h -lleveldb; then add leveldb LevelDB leveldb; fi
if peer rocksdb ROCKSDB librocksdb-dev rocksdb/db.h -lrocksdb; then add rocksdb RocksDB rocksdb; fi
if peer lmdb LMDB liblmdb-dev lmdb.h -llmdb; then
    add lmdb LMDB lmdb
    add lmdb-1000 'LMDB, 1,000 puts a transaction' 'lmdb 1000'
fi
if peer sqlite SQLITE libsqlite3-dev sqlite3.h -lsqlite3; then
    add sqlite SQLite sqlite
    add sqlite-1000 'SQLite, 1,000 puts a transaction' 'sqlite 1000'
fi
if peer tkrzw TKRZW libtkrzw-dev tkrzw_dbm_tree.h -ltkrzw; then add tkrzw 'Tkrzw, a TreeDBM' tkrzw; fi
if peer map MAP '' map; then add map 'std::map, no file' map; fi
if peer echo ECHO '' map; then add echo 'no store: a reply alone' echo; fi

# A store's file, what makes it new, and its session.
at=$room/at/store
clean() {
    case $1 in
    cola-*) IFS=- read -r _ block _ <<<"$1"; echo "rm -rf '$room/at' && mkdir '$room/at' && '$program' create '$at' --keys $keys --block $block" ;;
    *) echo "rm -rf '$room/at' && mkdir '$room/at'" ;;
    esac
}
session() {
    case $1 in
    cola-*) command=("$program" run "$at" --cache "${1##*-}") ;;
    *) read -r binary batch <<<"$2"; command=("$room/peers/$binary" "$at" ${batch:+"$batch"}) ;;
    esac
}

# The texts, the same in every run. order SEED: the numbers below LINES in an order of their own.
order() {
    awk -v many="$lines" -v seed="$1" '
        function draw(below) { seed = (seed * 16807) % 2147483647; return seed % below }
        BEGIN {
            for (at = 0; at < many; at++) key[at] = at
            for (at = many - 1; at > 0; at--) { other = draw(at + 1); held = key[at]; key[at] = key[other]; key[other] = held }
            for (at = 0; at < many; at++) print key[at]
        }'
}
say "making the texts of $lines lines"
texts=$room/texts
order 20071 | awk '{ printf "put key%08d %d\n", $1, NR }' >"$texts/random-puts"
order 60913 | awk '{ printf "get key%08d\n", $1 }' >"$texts/random-gets"
awk -v many="$lines" 'BEGIN { for (at = 0; at < many; at++) printf "put key%08d %d\n", at, at }' >"$texts/rising-puts"
awk -v many="$lines" 'BEGIN { for (at = 0; at < many; at++) printf "get key%08d\n", at }' >"$texts/rising-gets"
head -n $((lines / 100)) < <(order 42) | awk -v many="$lines" '{ at = $1 % (many - 99); printf "range key%08d key%08d\n", at, at + 100 }' >"$texts/ranges"
awk -v many="$lines" '
    function draw() { seed = (seed * 16807) % 2147483647; return seed }
    BEGIN {
        seed = 20071
        for (at = 0; at < many; at++) {
            key = draw() % 60000
            if (draw() % 2) printf "put key%08d %d\n", key, draw()
            else printf "get key%08d\n", key
        }
    }' >"$texts/mixed"
head -n $((lines / 4)) "$texts/random-puts" >"$texts/calls"
head -n $((lines / 4)) "$texts/random-puts" | awk '{ print "get", $2 }' | awk -v many=$((lines / 4)) '
    { line[NR - 1] = $0 }
    END {
        for (at = many - 1; at > 0; at--) { seed = (seed * 16807 + 11) % 2147483647; other = seed % (at + 1); held = line[at]; line[at] = line[other]; line[other] = held }
        for (at = 0; at < many; at++) print line[at]
    }' >>"$texts/calls"

# timed NAME TEXT: one run on one text, behind those before; adds a line to the results and compares the output.
results=$room/results
timed() {
    local name=$1 text=$2 out=$room/out status=0
    "$room/driver" run "$texts/$text" "$out" "${command[@]}" >"$room/took" || status=$?
    [ "$status" -eq 0 ] || { say "$name ended with $status on $text"; exit 1; }
    [ "$name" = echo ] || if [ -e "$room/outputs/$text" ]; then
        cmp "$room/outputs/$text" "$out" || { say "$name answers $text in its own way"; exit 1; }
    else
        mv "$out" "$room/outputs/$text"
        out=$room/outputs/$text
    fi
    # Of all calls but those for the text and the replies: name, text, seconds, user, system, KiB, reads, writes, bytes read, bytes written, KiB of the file
    # (the replies to what one read gave are one write, but for ranges)
    awk -v name="$name" -v text="$text" -v input="$(wc -c <"$texts/$text")" -v output="$(wc -c <"$out")" \
        -v unit="$([[ $name = cola-* ]] && echo 512 || echo 65536)" -v file="$(du -sk "$room/at" | cut -f 1)" '{
        asked = int((input + unit - 1) / unit)
        print name, text, $1, $2, $3, $4, $5 - asked - 1, $6 - asked, $7 - input, $8 - output, file
    }' "$room/took" >>"$results"
}
each() {
    local it
    for it in "${stores[@]}"; do
        IFS='|' read -r name title words <<<"$it"
        session "$name" "$words"
        "$1"
    done
}
# (a store without a file is only timed on the texts of one session)
whole() {
    say "$name"
    if [ "$name" != map ] && [ "$name" != echo ]; then
        eval "$(clean "$name")"
        for text in random-puts random-gets ranges; do timed "$name" $text; done
        eval "$(clean "$name")"
        for text in rising-puts rising-gets; do timed "$name" $text; done
    fi
    eval "$(clean "$name")"
    timed "$name" mixed
}
single() {
    say "$name, single calls"
    "$room/driver" calls $rounds "$texts/calls" "$room/points/$name" "$(clean "$name")" "${command[@]}" |
        awk -v name="$name" '{ print name, $0 }' >>"$room/calls"
}
# Growth: a store for each power of two, filled; then 16,384 puts and as many gets of keys that it has.
grow() {
    local exponent many row at=$room/growing/store
    for ((exponent = 6; exponent <= ${GROWTH:-24}; exponent += exponent < 20 ? 1 : 2)); do
        many=$((1 << exponent))
        say "growth, $many keys"
        rm -rf "$room/growing" && mkdir "$room/growing"
        "$program" create "$at" --keys $many
        awk -v many=$many 'BEGIN { for (at = 0; at < many; at++) printf "put key%08d %d\n", (at * 40503 + 7) % many, at }' >"$room/fill"
        "$program" run "$at" --cache 4096 --cost <"$room/fill" | ticks >"$room/fill.ticks"
        mv "$at" "$room/filled"
        awk -v many=$many -v calls=16384 '
            function draw() { seed = (seed * 16807) % 2147483647; return seed }
            BEGIN {
                seed = 20071
                for (at = 0; at < 2 * calls; at++) printf at < calls ? "put key%08d 1\n" : "get key%08d\n", draw() % many
            }' >"$room/more"
        "$room/driver" calls $rounds "$room/more" "$room/grown" "cp '$room/filled' '$at'" "$program" run "$at" --cache 4096 >"$room/grown"
        cp "$room/filled" "$at"
        grep ^put "$room/more" | "$program" run "$at" --cost | ticks >"$room/put.ticks"
        grep ^get "$room/more" | "$program" run "$at" --cost | ticks >"$room/get.ticks"
        # keys, levels; ticks of all puts and of gets: mean, most; nanoseconds of puts and of gets: median, worst
        row=$(awk '{ print $3, $5 }' "$room/grown" | head -n 2 | tr '\n' ' ')
        awk -v row="$row" -v keys=$many -v exponent=$exponent '
            FILENAME ~ /get.ticks$/ { mean = $1 / $2; most = $3 }
            FILENAME !~ /get.ticks$/ { all += $1; calls += $2; if ($3 > worst) worst = $3 }
            END { levels = exponent - 1 > 4 ? exponent - 1 : 4; print keys, levels, all / calls, worst, 40 * levels, mean, most, 8 * levels, row }
        ' "$room/fill.ticks" "$room/put.ticks" "$room/get.ticks" >>"$room/growth"
        rm -f "$room/filled"
    done
}
ticks() { awk '{ sum += $NF; if ($NF > most) most = $NF } END { print sum, NR, most }'; }
# The first row behind deletes: of all keys the lowest nine tenths are deleted; then a session asks for the next one alone, and the
# least time of its runs is taken.
behind() {
    local round gone=$((lines / 10 * 9))
    say 'behind deletes'
    eval "$(clean cola-5-0)"
    session cola-5-0 -
    awk -v many="$lines" -v gone=$gone 'BEGIN { for (at = 0; at < many; at++) printf "put key%08d %d\n", at, at; for (at = 0; at < gone; at++) printf "del key%08d\n", at }' | "${command[@]}" >"$room/out"
    printf 'range key%08d key%08d\n' 0 $((gone + 1)) >"$room/first"
    for ((round = 0; round < rounds; round++)); do
        "$room/driver" run "$room/first" "$room/out" "${command[@]}" >"$room/took"
        [ "$(grep -c '^row ' "$room/out")" -eq 1 ] || { say 'there is another row behind deletes'; exit 1; }
        cut -d ' ' -f 1 "$room/took"
    done | sort -g | head -n 1 >"$room/behind"
}
# (beside the stores, on a processor of its own, where there are four)
growing=
if [ "$(nproc --all)" -ge 4 ]; then
    grow &
    growing=$!
fi
each whole
each single
behind
[ "$(awk '$2 == "sum" && $1 != "echo" { print $3 }' "$room/calls" | sort -u | wc -l)" -eq 1 ] || { say 'the replies to single calls differ'; exit 1; }
if [ -n "$growing" ]; then wait "$growing"; else grow; fi

# The two other benches that an aim speaks of.
: >"$room/mem" >"$room/cells"
if [ -n "${COLA:-}" ]; then skip 'bench/mem.sh and bench/cells.sh (COLA names another program)'
else
    if command -v rustc >/dev/null; then say bench/mem.sh; "$root/bench/mem.sh" "$lines" | tee "$room/mem" >&2; else skip 'bench/mem.sh (rustc is not installed)'; fi
    if command -v rt >/dev/null; then say bench/cells.sh; "$root/bench/cells.sh" | tee "$room/cells" >&2; else skip 'bench/cells.sh (rt is not installed)'; fi
fi

# The tables.
for it in "${stores[@]}"; do echo "$it"; done >"$room/titles"
report() {
    echo '# Measured by bench/store.sh'
    echo
    printf 'Stores for %s keys, texts of %s lines, a quarter as many for puts and gets by single calls. %s, %s, %s of %s processors, load %s at the end, %s.\n' \
        "$keys" "$lines" "$(uname -sr)" "$(sed -n 's/^model name[^:]*: //p' /proc/cpuinfo | head -n 1)" "$(nproc)" "$(nproc --all)" "$(cut -d ' ' -f 1-3 /proc/loadavg)" "$(date +%F)"
    if command -v dpkg-query >/dev/null; then
        dpkg-query -W -f ' ${Package} ${Version}.' libleveldb-dev librocksdb-dev liblmdb-dev libsqlite3-dev libtkrzw-dev 2>/dev/null || true
        echo
    fi
    for it in "${skipped[@]}"; do echo "Skipped: $it."; done
    awk -F '|' -v results="$results" -v calls="$room/calls" -v growth="$room/growth" -v behind="$room/behind" -v many="$lines" -v rounds="$rounds" '
        function title(text) { printf "\n## %s\n\n", text }
        function head(words,    at, count, part) {
            count = split(words, part, / *\| */)
            for (at = 1; at <= count; at++) printf "| %s ", part[at]
            printf "|\n|---"
            for (at = 1; at < count; at++) printf "|---:"
            print "|"
        }
        function value(name, text, column) { return (name, text, column) in held ? held[name, text, column] : "" }
        function cell(it, format) { printf it == "" ? "| " : "| " format " ", it }
        { order[++stores] = $1; name_of[$1] = $2 }
        END {
            while ((getline line < results) > 0) {
                split(line, part, " ")
                for (column = 3; column <= 11; column++) held[part[1], part[2], column] = part[column]
                held[part[1], part[2], "cpu"] = part[4] + part[5]
                if (part[6] > peak[part[1]]) peak[part[1]] = part[6]
                if (part[2] == "random-gets") size[part[1]] = part[11]
            }
            texts = split("random-puts random-gets rising-puts rising-gets mixed ranges", text, " ")
            names = "| random puts | random gets | rising puts | rising gets | mixed | ranges"

            title("Seconds that passed")
            head("store" names " | peak MiB | file MiB")
            for (at = 1; at <= stores; at++) {
                printf "| %s ", name_of[order[at]]
                for (it = 1; it <= texts; it++) cell(value(order[at], text[it], 3), "%.2f")
                cell(peak[order[at]] / 1024, "%.1f")
                cell(size[order[at]] == "" ? "" : size[order[at]] / 1024, "%.0f")
                print "|"
            }
            title("Seconds of the processor, in program and system")
            head("store" names)
            for (at = 1; at <= stores; at++) {
                printf "| %s ", name_of[order[at]]
                for (it = 1; it <= texts; it++) cell(value(order[at], text[it], "cpu"), "%.2f")
                print "|"
            }
            title("Reads and writes of files, in calls per line")
            print "Calls of read and write as the system counts them for the process, less those for the text and the replies. Maps (LMDB, Tkrzw, SQLite in part) read without a call.\n"
            head("store | random puts: reads | writes | KiB a line | random gets: reads | KiB a line | ranges: reads | KiB a line")
            for (at = 1; at <= stores; at++) {
                name = order[at]
                if (!((name, "random-puts", 3) in held)) continue
                printf "| %s ", name_of[name]
                lines = many
                printf "| %.3f | %.3f | %.3f ", value(name, "random-puts", 7) / lines, value(name, "random-puts", 8) / lines, (value(name, "random-puts", 9) + value(name, "random-puts", 10)) / lines / 1024
                printf "| %.3f | %.3f ", value(name, "random-gets", 7) / lines, value(name, "random-gets", 9) / lines / 1024
                printf "| %.3f | %.3f |\n", value(name, "ranges", 7) / lines * 100, value(name, "ranges", 9) / lines / 1024 * 100
            }
            title("Single calls, in microseconds")
            print "The time from before a line is written to after its reply is read, the least over " rounds " runs of the same text.\n"
            head("store | put: median | 99.9th percentile | worst | get: median | 99.9th percentile | worst")
            while ((getline line < calls) > 0) {
                split(line, part, " ")
                for (column = 4; column <= 6; column++) single[part[1], part[2], column] = part[column] / 1000
            }
            for (at = 1; at <= stores; at++) {
                printf "| %s ", name_of[order[at]]
                for (it = 1; it <= 2; it++) for (column = 4; column <= 6; column++) cell(single[order[at], it == 1 ? "put" : "get", column], "%.1f")
                print "|"
            }
            title("Growth of cola, block 5, cache 4096")
            head("keys | levels | put: mean ticks | most | bound | get: mean ticks | most | bound | put: median us | worst us | get: median us | worst us")
            while ((getline line < growth) > 0) {
                split(line, part, " ")
                printf "| %d | %d | %.1f | %d | %d | %.1f | %d | %d | %.1f | %.1f | %.1f | %.1f |\n", part[1], part[2], part[3], part[4], part[5], part[6], part[7], part[8], part[9] / 1000, part[10] / 1000, part[11] / 1000, part[12] / 1000
            }
            title("The first row behind deletes")
            getline first < behind
            printf "With %d of %d keys deleted, the lowest, a session of one range of the next row took %.0f ms (block 5, no cache).\n", int(many / 10) * 9, many, first * 1000
            title("Aims")
            print "Each as a ratio, with the most that is aimed at. The first three are of cola with a cache of 4,096 blocks, each with the blocks that serve it best, beside LevelDB: seconds of all puts and gets of a text, or of the gets alone; the ranges are of the best setting of all. The worst calls are of cola with blocks of 2^5 cells, the better of its caches, beside LMDB and beside the least worst get of a store with a file.\n"
            for (at = 1; at <= stores; at++) if (order[at] !~ /^(cola|map|echo)/ && (order[at], "get", 6) in single && (!best || single[order[at], "get", 6] < single[best, "get", 6])) best = order[at]
            for (at = 1; at <= stores; at++) if ((name = order[at]) ~ /^cola/) {
                split(name, part, "-")
                if (part[3] == 4096) {
                    least("random", name, both(name, 1)); least("rising", name, both(name, 2)); least("gets", name, value(name, "random-gets", 3))
                }
                if (part[2] == 5) { least("put", name, single[name, "put", 6]); least("get", name, single[name, "get", 6]) }
                least("ranges", name, value(name, "ranges", 3))
                grown = peak[name] / 1024 - part[3] * 64 * 2 ^ part[2] / 1048576
                if (grown > more) { more = grown; found["memory"] = name }
            }
            head("of | by | at most | ratio")
            ratio("random text, beside LevelDB", "random", both("leveldb", 1), 1.25)
            ratio("rising text, beside LevelDB", "rising", both("leveldb", 2), 2.4)
            ratio("gets in random order, beside LevelDB", "gets", value("leveldb", "random-gets", 3), 1)
            ratio("worst put, blocks of 2^5, beside LMDB", "put", single["lmdb", "put", 6], 0.04)
            ratio("worst get, beside that of " name_of[best], "get", single[best, "get", 6], 1.2)
            ratio("ranges of 100 rows, beside LevelDB", "ranges", value("leveldb", "ranges", 3), 3)
            lowest["memory"] = more
            ratio("peak memory above the cache, of 8 MiB", "memory", 8, 1)
        }
        function least(aim, name, it) { if (it && (!(aim in lowest) || it < lowest[aim])) { lowest[aim] = it; found[aim] = name } }
        function both(name, kind) { return value(name, kind == 1 ? "random-puts" : "rising-puts", 3) + value(name, kind == 1 ? "random-gets" : "rising-gets", 3) }
        function ratio(of, aim, theirs, most) { if (theirs && aim in lowest) printf "| %s | %s | %s | %.2f%s |\n", of, name_of[found[aim]], most, lowest[aim] / theirs, lowest[aim] / theirs <= most ? "" : ", not met" }
    ' "$room/titles"
    awk '
        function aim(words, by, most, ratio) { printf "| %s | %s | %s | %s%s |\n", words, by, most, ratio, ratio <= most ? "" : ", not met" }
        / lines over /{ keys = $4 }
        /^cola \/ BTreeMap, 64 KiB/ {
            sub(/.*: /, ""); split($0, part, " ")
            aim("processor time at " keys " keys, of a buffered BTreeMap", "cola mem", keys == 1000 ? 2.5 : 1.5, part[1])
            sub(/.* user time, /, ""); split($0, part, " ")
            aim("seconds at " keys " keys, of a buffered BTreeMap", "cola mem", keys == 1000 ? 2.5 : 1.5, part[1])
        }
        /^decode (one|two) / { aim("decoding a cell of format " $2 ", of plain C", "cola_cell", 1.5, $NF) }
    ' "$room/mem" "$room/cells"
}
report >"$folder/measured.md"

# The plots, from the tables.
awk -v folder="$folder" -f "$root/bench/plots.awk" "$folder/measured.md"
