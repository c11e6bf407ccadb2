#!/usr/bin/env bash
# What is left of a file where the program dies, where the machine stops, and where two programs meet at it. The program is
# killed at moments that are drawn, and inside the calls by which it changes its file; what it writes between two syncs reaches
# a copy of the file in any order; and two are started at once. Each time the file is refused, or has the map of the opening
# or of a close, as the session in memory tells it. What needs a C compiler is skipped where there is none, and that is said.
#
#     tests/crash.sh [PROGRAM]    (the program to be tested; else the one that is built here)
#
# The last line is 'N passed, M failed', and the status is 0 only where none failed.
set -u
root=$(cd "$(dirname "$0")/.." && pwd -P) || exit 1
room=$(mktemp -d) || exit 1
trap 'rm -rf "$room"' EXIT
passed=0 failed=0
RANDOM=1
tries=${TRIES:-200} pairs=${PAIRS:-300}

# check WHAT COMMAND..: counts whether the command ends with 0.
check() {
    local what=$1
    shift
    if "$@"; then
        passed=$((passed + 1))
    else
        failed=$((failed + 1))
        printf 'FAILED: %s\n' "$what"
    fi
}

if [ $# -eq 0 ]; then
    "$root/cola" mem 4 </dev/null >/dev/null || exit 1 # (says what it does where it still has to build)
    program=$root/crates/cola/out/cola
else
    program=$(readlink -f -- "$1")
fi
cd "$room" || exit 1

# A session of some rounds, each with a close and an open behind it, and the rows at the opening and at each close, as the session
# in memory has them.
keys=512 rounds=12
awk -v rounds=$rounds 'BEGIN {
    srand(53)
    for (round = 1; round <= rounds; round++) {
        for (line = 1; line <= 60; line++) {
            key = sprintf("key%03d", rand() * 150)
            print (rand() < 0.75 ? "put " key " value" round "." line : "del " key)
        }
        print "close"; print "open"
    }
}' >lines
{ echo 'scan ! 512'; sed '/^open$/d; s/^close$/scan ! 512/' lines; } | "$program" mem $keys |
    awk '/^row / { rows = rows $0 "\n" } /^end / { printf "%s%s\n", rows, $0 >"map" maps++; rows = "" }' || exit 1
mv "map$rounds" last && cp last "map$rounds"

# The files that sessions begin with and that others are made of: with blocks of 64 KiB, the largest.
"$program" create empty --keys $keys --block 9 --version 2 || exit 1
"$program" load one --keys $keys --block 9 <last >loaded || exit 1
"$program" load two --keys $keys --block 9 --version 2 <last >loaded || exit 1
printf 'row a 1\nrow b 2\n' >others
"$program" load old --keys $keys --block 9 <others >loaded || exit 1
echo 'end 2' >>others
cp old used
printf '\001' | dd of=used bs=1 seek=14 conv=notrunc status=none

refused=0 whole=0

# has FILE MAP..: whether the program refuses the file, as one in use or as none, or it is sound and has one of these maps.
has() {
    local file=$1 map
    shift
    if [ ! -s "$file" ]; then refused=$((refused + 1)); return; fi
    "$program" check "$file" >checked
    case $? in
    0) ;;
    6 | 7) refused=$((refused + 1)); return ;;
    *) cat checked; return 1 ;;
    esac
    echo 'scan ! 512' | "$program" run "$file" >rows || return
    for map; do
        if cmp -s rows "$map"; then whole=$((whole + 1)); return; fi
    done
    echo "it has a map that it never had"
    return 1
}

# The ways in which `file` is changed. begin WAY makes what it begins with; change WAY COMMAND.. changes it, by the program as the words
# of a command; is_right WAY is whether what it leaves is refused or whole.
ways='session load grow upgrade rebuild rebuild-old rebuild-used'
begin() {
    rm -f file
    case $1 in
    session) cp empty file ;;
    rebuild-old) cp old file ;;
    rebuild-used) cp used file ;;
    esac
}
change() {
    local way=$1
    shift
    case $way in
    session) "$@" "$program" run file <lines ;;
    load) "$@" "$program" load file --keys $keys --block 9 --version 2 <last ;;
    grow) "$@" "$program" grow two file --keys 600 --block 9 ;;
    upgrade) "$@" "$program" upgrade one file ;;
    rebuild*) "$@" "$program" rebuild one file ;;
    esac >out
} 2>/dev/null
is_right() {
    local closes at maps=()
    case $1 in
    session)
        closes=$(grep -c '^closed' out)
        for ((at = closes; at <= rounds; at++)); do maps+=("map$at"); done
        has file "${maps[@]}"
        ;;
    rebuild-old) has file last others ;;
    *) has file last ;;
    esac
}

# ends WAY: whether it ends as it should where nothing stops it.
ends() { begin "$1" && change "$1" && is_right "$1" && [ "$whole" -gt 0 ]; }

# tries_of WAY: how often it is killed, all rebuilds together as often as each of the others.
tries_of() { case $1 in rebuild*) echo $(((tries + 2) / 3)) ;; *) echo "$tries" ;; esac; }

# dies WAY: whether the file is right after each kill at a moment that is drawn. (In the foreground timeout outlives the program, so
# that the file is looked at when the system has given up the lock.)
dies() {
    local begun took try tries=$(tries_of "$1")
    refused=0 whole=0
    begin "$1"
    begun=$(date +%s%N)
    change "$1"
    took=$((($(date +%s%N) - begun) / 1000))
    for ((try = 1; try <= tries; try++)); do
        begin "$1"
        change "$1" timeout --foreground -s KILL "$(printf '0.%06d' $(((RANDOM * 32768 + RANDOM) % took + 1)))"
        is_right "$1" || { echo "$1, kill $try"; return 1; }
    done
    echo "$1: killed $tries times at any moment: $refused refused, $whole whole"
}

# dies_inside WAY: the same of kills inside the calls that change the file, half of them inside the last twelve.
dies_inside() {
    local calls try at cut tries=$(tries_of "$1")
    refused=0 whole=0
    rm -f log
    begin "$1"
    change "$1" env LD_PRELOAD="$room/calls.so" CRASH_LOG="$room/log"
    calls=$(wc -l <log) || return
    for ((try = 1; try <= tries; try++)); do
        at=$((try % 2 ? calls - try % 24 / 2 : RANDOM % calls + 1))
        case $((RANDOM % 4)) in
        0) cut=0 ;;
        1) cut=512 ;;
        2) cut=$((4096 << RANDOM % 5)) ;;
        3) cut=$((RANDOM * 2)) ;;
        esac
        begin "$1"
        change "$1" env LD_PRELOAD="$room/calls.so" CRASH_AT=$((at > 0 ? at : 1)) CRASH_CUT=$cut
        is_right "$1" || { echo "$1, kill in call $at of $calls behind $cut bytes"; return 1; }
    done
    echo "$1: killed $tries times inside a call: $refused refused, $whole whole"
}

# stops WAY: whether the file is whole or refused where the machine stops, of what was not synced any part being there.
stops() {
    rm -f log
    begin "$1"
    [ ! -e file ] && : >before || cp file before
    change "$1" env LD_PRELOAD="$room/calls.so" CRASH_LOG="$room/log"
    printf '%s: stopped: ' "$1"
    ./stops before log broken || { [ ! -e broken ] || "$program" check broken; return 1; }
}

for way in $ways; do
    check "$way: it ends" ends "$way"
    check "$way: killed at any moment" dies "$way"
done
if command -v cc >/dev/null; then
    cc -std=gnu11 -Wall -Wextra -Werror -O1 -shared -fPIC -o calls.so "$root/tests/crash/calls.c" -ldl || exit 1
    cc -std=gnu11 -Wall -Wextra -Werror -O1 -o stops "$root/tests/crash/stops.c" || exit 1
    for way in $ways; do
        check "$way: killed inside a call" dies_inside "$way"
        check "$way: the machine stops" stops "$way"
    done
else
    echo 'skipped: kills inside a call, and the machine that stops (there is no cc)'
fi

# Two programs at once. begin_pair WAY makes what they begin with, one WAY NUMBER is what each does, and one_won WAY FIRST SECOND is whether
# what they left is right, by their statuses.
begin_pair() {
    rm -f file other
    case $1 in
    rebuild) cp old file ;;
    run | mirror) cp empty file ;;
    esac
    [ "$1" != mirror ] || cp empty other
}
one() {
    case $1 in
    create) "$program" create file --keys $keys --block 9 --version 2 ;;
    gen) "$program" gen file --keys 60 ;;
    run) echo "put key$2 $2" | "$program" run file ;;
    mirror) echo "put key$2 $2" | "$program" run file --mirror other ;;
    *) change "$1" ;;
    esac >"out$2" 2>/dev/null
}
keeps() { [ "$(echo "get key$2" | "$program" run "$1")" = "val $2" ]; }
lacks() { [ "$(echo "get key$2" | "$program" run "$1")" = none ]; }
one_won() {
    local first=$2 second=$3 number status
    case $1 in
    run | mirror)
        for number in 1 2; do
            status=$first
            [ $number -eq 1 ] || status=$second
            case $1,$status in
            run,0) keeps file $number ;;
            mirror,0) keeps file $number && keeps other $number ;;
            mirror,17) keeps other $number ;;
            mirror,18) keeps file $number ;;
            run,5 | run,7) lacks file $number ;;
            mirror,5 | mirror,7 | mirror,16) lacks file $number && lacks other $number ;;
            *) false ;;
            esac || return
        done
        [ "$first" -eq 0 ] || [ "$second" -eq 0 ] || [ "$1" = mirror ]
        ;;
    rebuild)
        case $first,$second in
        0,0 | 0,5 | 5,0) has file last ;;
        *) false ;;
        esac
        ;;
    *)
        case $first,$second in
        0,5 | 0,8 | 5,0 | 8,0) ;;
        *) return 1 ;;
        esac
        case $1 in
        create | gen) "$program" check file >checked ;;
        *) has file last ;;
        esac
        ;;
    esac
}
meet() {
    local pair first second both=0
    for ((pair = 1; pair <= pairs; pair++)); do
        begin_pair "$1"
        one "$1" 1 &
        first=$!
        one "$1" 2
        second=$?
        wait "$first"
        first=$?
        one_won "$1" $first $second || { echo "$1, pair $pair: they ended with $first and $second"; return 1; }
        [ $((first + second)) -ne 0 ] || both=$((both + 1))
    done
    echo "$1: $pairs pairs, of which both were served $both times"
}
for way in create load gen grow upgrade rebuild run mirror; do
    check "$way: two at once" meet "$way"
done

echo "$passed passed, $failed failed"
[ "$failed" -eq 0 ]
