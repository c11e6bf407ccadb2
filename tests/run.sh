#!/usr/bin/env bash
# Sessions over files that the program makes, in a folder of its own: the first run of the README, the statuses of `run`
# on a real file, and the examples with their output. It runs the program through ./cola, which builds it where rt ci has not.
# The last line is 'N passed, M failed', and the status is 0 only where none failed.
. "$(dirname "$0")/lib.sh"

# replies STATUS REPLIES LINES WORD..: whether the program, with these words and these lines, each given with commas for
# line feeds, writes these replies and ends so.
replies() {
    local wanted=$1 written=$2 lines=$3 status
    shift 3
    printf '%s' "$lines" | tr ',' '\n' | "$root/cola" "$@" >"$room/out" 2>"$room/err"
    status=$?
    [ "$status" -eq "$wanted" ] || { printf 'it ended with status %s\n' "$status"; return 1; }
    [ "$(tr '\n' ',' <"$room/out")" = "$written" ] || { cat "$room/out"; return 1; }
}

# gives NAME COMMAND..: whether the command writes the output that stands beside the example.
gives() {
    local name=$1
    shift
    "$@" 2>"$room/err" | cmp -s - "$root/examples/$name.out"
}

is_same() { cmp -s "$room/$1" "$room/$2"; }
has_state() { [ "$(od -An -tu1 -j14 -N1 "$room/$1" | tr -d ' ')" -eq "$2" ]; }

"$root/cola" mem 4 </dev/null >/dev/null || exit 1 # (says what it does where it still has to build)
cd "$room" || exit 1

"$root/cola" create notes --keys 1000 || exit 1
check 'the first run of the README' \
    replies 0 'new,new,val Ada,row user:1001 Ada,row user:1002 Grace,end 2,closed,open 2,val Grace,' \
    'put user:1001 Ada,put user:1002 Grace,get user:1001,range user: user;,close,open,get user:1002,' run notes
check 'a closed file says so' has_state notes 0
check 'what was written is found in the next run' replies 0 'count 2,gone Ada,none,' 'count,del user:1001,get user:1001,' run notes
check 'behind a cache too' replies 0 'val Grace,' 'get user:1002,' run notes --cache 64
check 'costs are printed' replies 0 'none # 1,' 'get a,' run notes --cost
cp notes before
check 'what a session leaves is sound' replies 0 'sound 1,' '' check notes
check 'a test writes nothing' is_same notes before
printf '\002' | dd of=notes bs=1 seek=24 conv=notrunc 2>/dev/null
check 'a file with another count is broken' replies 13 'broken count 0 0,' '' check notes
cp before notes
"$root/cola" create one --keys 1 || exit 1
check 'a put is full where a new key meets the limit' replies 0 'new,full,old 1,gone 3,new,none,' \
    'put a 1,put b 2,put a 3,del a,put b 2,get a,' run one
"$root/cola" create wide --keys 32 --version 2 || exit 1
check 'a store of version 2 has stamps' replies 0 'new,at 1,other 1,old x,at 2,' \
    'put a x,stamp a,putif a 7 y,putif a 1 y,stamp a,' run wide
check 'an empty input has no reply' replies 0 '' '' run one
check 'a file that is not there ends with 5' replies 5 '' 'count,' run missing
check 'it is not made' [ ! -e missing ]
head -c 511 one >short
check 'a file that is too short for a header ends with 6' replies 6 '' 'count,' run short
head -c 8191 one >short
check 'a file that is too short for its cells ends with 6' replies 6 '' 'count,' run short
cp one used
printf '\001' | dd of=used bs=1 seek=14 conv=notrunc status=none
cp used before
check 'a file in use ends with 7' replies 7 '' 'count,' run used
check 'it is not changed' is_same used before
printf x >>one
check 'a longer file is served' replies 0 'val 2,' 'get b,' run one
check 'and keeps its last byte' [ "$(tail -c 1 one)" = x ]
# Replies go out before the program waits for more lines, those to several lines that came at once together.
coproc session { exec "$root/cola" mem 4; }
answers() {
    local reply at lines=$1
    shift
    printf '%b' "$lines" >&"${session[1]}"
    for at; do read -r -t 20 reply <&"${session[0]}" && [ "$reply" = "$at" ] || return 1; done
}
check 'a line is answered before another is sent' answers 'put a 1\n' new
check 'lines that came at once are answered before others are sent' answers 'get a\ndel a\ncount\n' 'val 1' 'gone 1' 'count 0'
check 'a line whose end comes later is answered with the next' answers 'put b 2\nget' new
check 'once it has come' answers ' b\n' 'val 2'
waits=$session_PID
exec {session[1]}>&-
check 'the end of the input ends it' wait "$waits"
awk 'BEGIN { for (i = 0; i < 10000; i++) printf "put key%d value%d\nget key%d\n", i % 50, i, i % 50 }' >many
"$root/cola" mem 64 <many >whole
check 'ten thousand gets are answered in their order' [ "$(sed -n 's/^val value//p' whole | tr '\n' ' ')" = "$(seq -s ' ' 0 9999) " ]
if [ -w /dev/full ]; then
    "$root/cola" mem 4 <"$root/examples/first.txt" >/dev/full 2>"$room/err"
    check 'replies that are lost when the input is at its end are told' [ $? -eq 4 ]
fi
check 'the stated workload' replies 0 'new 6 gone 3 left 3 wrong 0 over 0,' '' gen made --keys 8
check 'leaves a store' replies 0 'count 3,' 'count,' run made
# A dump is loaded again, also where puts and deletes came in any order; and a file is grown.
awk 'BEGIN { srand(7); for (i = 0; i < 1000; i++) { k = int(rand() * 300); if (rand() < 0.7) printf "put k%03d %d\n", k, i; else printf "del k%03d\n", k } }' >random
"$root/cola" create old --keys 400 || exit 1
"$root/cola" run old <random >"$room/out"
echo 'scan ! 16777216' | "$root/cola" run old >dump
check 'a dump is loaded' replies 0 "$(tail -1 dump | sed 's/end/loaded/')," "$(tr '\n' ',' <dump)" load new --keys 400
echo 'scan ! 16777216' | "$root/cola" run new >again
check 'and dumped again as it was' cmp -s dump again
check 'what was loaded is sound' replies 0 "$(tail -1 dump | sed 's/end/sound/')," '' check new
cp old before
check 'a file is grown' replies 0 "$(tail -1 dump | sed 's/end/loaded/')," '' grow old larger --keys 2000
check 'and is not written' is_same old before
echo 'scan ! 16777216' | "$root/cola" run larger >again
check 'the larger one has the same rows' cmp -s dump again
check 'a file of fewer keys is not made' replies 15 '' '' grow old small --keys 100
printf '%s\n' 'pear 3' 'apple 1' 'fig 2' >pairs
LC_ALL=C sort -u -k1,1 pairs | sed 's/^/row /' >sorted
check 'sorted pairs are loaded' replies 0 'loaded 3,' "$(tr '\n' ',' <sorted)" load fruit --keys 10
check 'and found' replies 0 'val 2,' 'get fig,' run fruit
check 'a line that is no row ends a load' replies 14 'bad 2,' 'row a 1,put b 2,' load none --keys 10
check 'and its file is no store' replies 6 '' 'count,' run none
# At a terminal the launcher says how far a long load is, and the program reads its input all the same.
if command -v script >/dev/null; then
    { echo 'row a 1'; head -c 68000000 /dev/zero | tr '\0' '\n'; echo 'row b 2'; } >long
    script -qec "'$root/cola' load late --keys 10 <long" /dev/null >"$room/out" 2>"$room/err"
    check 'a long load at a terminal reads its input' grep -q 'loaded 2' "$room/out"
    check 'and it is said how far it is' grep -q 'MiB read so far; the input has 64 MiB' "$room/out"
    rm long
else
    echo 'a long load at a terminal is skipped: there is no command script'
fi
check 'an index of words' gives words "$root/examples/words.sh" <"$root/examples/sonnet.txt"
check 'a collector of log lines' gives log "$root/examples/log.sh"

finish
