#!/usr/bin/env bash
# The checks of the launcher. The first part runs the program itself through ./cola, and builds it
# where rt ci has not; the second runs a copy of the launcher over a toolchain that is played by a
# script, so that builds, changes, refusals, words and statuses are seen within seconds.
# The last line is 'N passed, M failed', and the status is 0 only where none failed.
. "$(dirname "$0")/lib.sh"

# run COMMAND..: leaves the status in $status, and what it wrote in $room/out and $room/err.
run() {
    "$@" >"$room/out" 2>"$room/err"
    status=$?
}

ended() { [ "$status" -eq "$1" ] || { printf 'it ended with status %s\n' "$status"; false; }; }
wrote() { cmp "$room/out" "$1"; }
wrote_text() { printf '%s' "$1" | cmp "$room/out" -; }
complained() { [ "$(wc -l <"$room/err")" -eq 1 ] && grep -q "$1" "$room/err"; }
is_silent() { [ ! -s "$room/err" ]; }

# A folder with the commands that the launcher calls, and without rt.
without_rt=$room/without_rt
mkdir "$without_rt"
for it in awk cat cut dirname env find flock grep head mktemp mv perl readlink rm sed sha256sum sh sleep sort stat tail touch tr true; do
    found=$(command -v "$it") && ln -s "$(readlink -f "$found")" "$without_rt/$it"
done

# The program itself.
"$root/cola" mem 4 </dev/null >/dev/null || exit 1 # (says what it does where it still has to build)
cd "$room" || exit 1
run "$root/cola" mem 4 <"$root/examples/first.txt"
check 'the first run ends with 0' ended 0
check 'the first run writes its replies' wrote "$root/examples/first.out"
check 'a built program runs with no word of the launcher' is_silent
run "$root/cola" </dev/null
check 'no words end with 2' ended 2
check 'no words write nothing' wrote_text ''
check 'no words name the modes' grep -q '^cola: there is no word; the first one is a mode: create, run, mem, ' "$room/err"
run "$root/cola" mem 0 </dev/null
check 'mem 0 ends with 2' ended 2
check 'wrong words say what the status means' grep -q '^cola: .*status 2: the words are none of its modes' "$room/err"
run "$root/cola" 'mem 4' </dev/null
check 'a word with a space in it stays one word' ended 2
run "$root/cola" mem 4 '' </dev/null
check 'an empty word stays a word' ended 2
"$root/cola" create kept --keys 4 >"$room/out" && echo 'of a session' >kept-journal
run "$root/cola" run kept </dev/null
check 'a file with a journal beside it is opened as before' ended 0
check 'the journal is told in one line' complained 'cola-recover kept finishes its checkpoint'
rm kept-journal
run "$root/cola" mem 4 <"$root"
check 'an input that cannot be read ends with 3' ended 3
check 'status 3 is told in one line' complained 'status 3: reading the input failed'
if [ -w /dev/full ]; then
    "$root/cola" mem 4 <"$root/examples/first.txt" >/dev/full 2>"$room/err"
    status=$?
    check 'an output that cannot be written ends with 4' ended 4
fi
ln -s "$root/cola" "$room/link"
run "$room/link" mem 4 <"$root/examples/first.txt"
check 'a link to the launcher runs the program' wrote "$root/examples/first.out"
PATH=$without_rt run "$root/cola" mem 4 <"$root/examples/first.txt"
check 'with no rt on PATH it ends with 100' ended 100
check 'with no rt on PATH it says so in one line' complained PATH
check 'with no rt on PATH it writes nothing' wrote_text ''

# A log that follows a file is told of, also as an earlier library wrote it, and another file of its name is not.
"$root/cola" create kept --keys 10
for it in 4096 512; do
    { printf COLA-LOG && head -c "$it" kept; } | sha256sum | cut -c 1-64 | perl -ne 'chomp; print pack "H*", $_' >kept-log
    run "$root/cola" check kept
    check "a log beside a file is told of, by $it bytes" complained 'kept: the log kept-log stands beside it: cola-recover kept makes its calls again'
done
{ printf COLA-LOG && head -c 4096 kept | tr 'C' 'D'; } | sha256sum | cut -c 1-64 | perl -ne 'chomp; print pack "H*", $_' >kept-log
run "$root/cola" check kept
check 'that of another file is not' is_silent
echo 'a text of that name, which is none' >kept-log
run "$root/cola" check kept
check 'a text of its name is not' is_silent
rm kept kept-log

# What the system says of the files of a status.
causes() { tail -n +2 "$room/err" | sed 's/^cola: //'; }
caused() { [ "$(causes)" = "$1" ] || { causes; false; }; }
run "$root/cola" run missing </dev/null
check 'status 5 names a file that is not there' caused 'missing: there is no such file'
run "$root/cola" create there/one --keys 1
check 'and a folder that is not there' caused 'there/one: there is no folder there'
run "$root/cola" check .
check 'and a folder in the place of a file' caused '.: is a folder'
ln -s nowhere dangling
run "$root/cola" check dangling
check 'and a link to nothing' caused 'dangling: is a link to a file that is not there'
run "$root/cola" create one --keys 1
cp one two
run "$root/cola" run one --cost --mirror missing </dev/null
check 'and the second file of a mirror' \
    caused $'one: the system names no cause now; dmesg may, and df and quota say what room is left\nmissing: there is no such file'
: >none
run "$root/cola" run none </dev/null
check 'status 6 names an empty file' caused 'none: is empty; cola create makes a store of it'
run "$root/cola" run "$root/cola" </dev/null
check 'and a file that is no store' caused "$root/cola: does not begin as a store does"
head -c 600 one >short
run "$root/cola" check short
check 'and one that was cut short' \
    caused 'short: begins as a store does; it was cut short, or its header is damaged, or of a version that is not known'
mkfifo lines
"$root/cola" run one <lines >/dev/null 2>&1 &
exec 8>lines
for it in $(seq 100); do [ "$(od -An -tu1 -j14 -N1 one | tr -d ' ')" = 1 ] && break; sleep 0.1; done # (until it is in use)
run "$root/cola" run one </dev/null
check 'a file in use ends with 7' ended 7
check 'status 7 names the process' grep -Eq '^cola: one: process [0-9]+ has it open' "$room/err"
cp one killed
exec 8>&-
wait
run "$root/cola" run killed </dev/null
check 'and says where there is none' \
    caused 'killed: no process is seen that has it open: the last session ended before it closed the file'
run "$root/cola" grow one </dev/null
check 'wrong words of a mode name what is wrong, and how it is called' \
    caused $'TO is missing behind grow\n    cola grow FILE TO --keys N [--block b]\n        copies the map of a closed file into a new one for N keys'

# Which of wrong words is at fault: the words, and what is said of them in a line, in at most four in all.
while IFS='|' read -r words fault; do
    eval "run '$root/cola' $words" </dev/null
    check "wrong: $words" test "$status/$(sed -n '2s/^cola: //p' "$room/err")" = "2/$fault"
    check "$words is told in at most four lines" test "$(wc -l <"$room/err")" -le 4
done <<'WRONG'
chekc one|chekc: there is no such mode; did you mean check?
serve one|serve: there is no such mode; the modes are create, run, mem, load, grow, check, upgrade, rebuild, gen
''|: there is no such mode; the modes are create, run, mem, load, grow, check, upgrade, rebuild, gen
run one --cahce 4|--cahce: run has no such option; did you mean --cache?
run one --keys 4|--keys: run has no such option
run one cost|cost: a word too many; did you mean --cost?
run one --cost --cost|--cost: stands twice
run one --cache 4097|4097: --cache is a number from 0 to 4096
run one --mirror|--mirror: its value is missing
run one --mirror -x|-x: OTHER is wanted here, and its name does not begin with - (./-x would do)
create new --keys 1k|1k: --keys is a number, of decimal digits alone
create new --keys +5|+5: --keys is a number, of decimal digits alone
create new --keys ''|: --keys is a number, of decimal digits alone
create new --keys 0|0: --keys is a number from 1 to 16777216
create new --keys 00000000001|00000000001: --keys is a number of at most 10 digits
create new --keys=5|--keys=5: an option and its value are two words, as in --keys 5
create new --block 7 --keys 64|7: --block is a number from 3 to 6
create new --block 6 --keys 32|6: --block is a number from 3 to 5
create new --keys 4 --version 3|3: --version is a number from 1 to 2
create new|--keys N is missing behind create
create '' --keys 4|an empty word: the name of FILE has a byte at least
create -x --keys 4|-x: FILE is wanted here, and its name does not begin with - (./-x would do)
check|FILE is missing behind check
check one two|two: a word too many
check one /two|/two: a word too many
check one '*'|*: a word too many
run one '--cost --cache'|--cost --cache: run has no such option
check '-\n'|-\n: FILE is wanted here, and its name does not begin with - (./-\n would do)
upgrade one ''|an empty word: the name of TO has a byte at least
mem|N is missing behind mem
mem 65537|65537: N is a number from 1 to 65536
mem $'4\n5'|4?5: N is a number, of decimal digits alone
mem 4 ''|an empty word: a word too many
WRONG
run "$root/cola" create large --keys 64 --block 6
check 'the largest block that is named is taken' ended 0

# A program that is played by a script, installed: how statuses above 128 are told, and how far a long mode is.
played=$room/played
mkdir -p "$played/bin" "$played/libexec/cola" "$played/share/cola"
cp "$root/cola" "$played/bin/cola"
cp "$root/docs/COMMANDS.md" "$played/share/cola/COMMANDS.md"
cat >"$played/libexec/cola/cola" <<'PLAYED'
#!/bin/sh
case $1 in
gen | check)
    sleep 4.5
    for it in $(seq 300); do
        [ -n "$typed" ] && ! grep -q 'so far' "$typed" || break
        sleep 0.2
    done
    echo 'done 1'
    ;;
grow) exec sleep 60 ;;
create) exit 20 ;;
*) kill -"$2" $$; sleep 5 ;;
esac
PLAYED
chmod +x "$played/libexec/cola/cola"
tells() { [ "$status" -eq "$1" ] && [ "$(head -n 1 "$room/err")" = "cola: the program ended with status $1: $2 (cola help statuses has what to do)" ]; }
run "$played/bin/cola" run KILL </dev/null
check 'a program that was killed' tells 137 'it was killed from outside; the system does so where memory is short'
run "$played/bin/cola" upgrade SEGV </dev/null
check 'one that a fault has ended' tells 139 'a fault of its own or of the system ended it, the signal SEGV'
run "$played/bin/cola" upgrade TERM </dev/null
check 'one that was ended from outside' tells 143 'it was ended from outside, by the signal TERM'
run "$played/bin/cola" create
check 'a status that is not known' tells 20 'it is none of the statuses that this launcher knows: it is older than the program'
if command -v script >/dev/null; then
    for mode in gen check; do
        typed=$room/out script -qec "'$played/bin/cola' $mode one" /dev/null </dev/null >"$room/out" 2>"$room/err"
        check "at a terminal $mode says how far it is" grep -q 'cola: [0-9]* MiB read so far' "$room/out"
        check 'and clears that before the program writes' grep -q $'\e\\[K\r\e\\[Kdone 1' "$room/out"
    done
    # (it is ended once it has said how far it is, by a signal to it alone and by one to all that it started)
    cat >"$room/ended" <<'ENDED'
set -m
"$1" grow one two --keys 4 &
for _ in $(seq 600); do
    ! grep -q 'so far' "$2" || break
    sleep 0.1
done
kill -TERM -- "$3$!"
wait "$!"
ENDED
    for whom in '' -; do
        script -qec "bash '$room/ended' '$played/bin/cola' '$room/out' $whom" /dev/null </dev/null >"$room/out" 2>"$room/err"
        check 'and before it is said that a signal ended it' \
            grep -q $'so far.*more than once\e\\[K\r\e\\[Kcola: the program was ended at once, by TERM' "$room/out"
    done
    run "$played/bin/cola" gen one
    check 'with no terminal nothing is said' is_silent
else
    echo 'launcher: script is not here; how far a mode is at a terminal is skipped'
fi

# What it answers by itself, with no toolchain.
PATH=$without_rt run "$root/cola" --version
check 'the version' wrote_text $'cola 1.0, for stores of version 1 and 2\n'
PATH=$without_rt run "$root/cola" --help
check 'a call for help ends with 0' ended 0
check 'and says nothing else' is_silent
cp "$room/out" "$room/help"
PATH=$without_rt run "$root/cola" help
check 'help is --help' wrote "$room/help"
sed -n 's/^| `\([a-z]* .*\)` | \(.*\) |$/    cola \1\n        \2/p; /^###/q' "$root/docs/COMMANDS.md" >"$room/modes"
check 'help has all modes' test "$(wc -l <"$room/modes")" -ge 18
check 'as the manual has them' test "$(grep '^    ' "$room/help")" = "$(cat "$room/modes")"
for mode in $(sed -n 's/^    cola \([a-z]*\) .*/\1/p' "$room/modes"); do
    PATH=$without_rt run "$root/cola" help "$mode"
    check "help $mode ends with 0" ended 0
    check "help $mode begins with its words" test "$(head -n 1 "$room/out")" = "$(grep "^    cola $mode " "$room/modes")"
    check "help $mode has its example" grep -q "^    \$ .*cola.* $mode " "$room/out"
    cp "$room/out" "$room/help"
    PATH=$without_rt run "$root/cola" "$mode" --help
    check "$mode --help is help $mode" wrote "$room/help"
done
PATH=$without_rt run "$root/cola" help statuses
check 'help statuses has each' test "$(grep -c '^    [0-9][0-9]*$' "$room/out")" -eq 19
PATH=$without_rt run "$root/cola" help nothing
check 'a section that the manual has not ends with 2' ended 2
check 'and is told in one line' complained 'the manual has no section nothing; it has these: modes, create'

# A copy over a toolchain that is played by a script: its rt notes each call, and builds a program that shows its words, its
# folder and its input, and ends with the status that its first word names. Its crates are low, high above it, apart beside.
copy="$room/a copy"
mkdir -p "$copy/crates/cola/src" "$copy/crates/low/src" "$copy/crates/high/src" "$copy/crates/apart/src" "$copy/docs" "$room/bin"
cp "$root/cola" "$copy/cola"
cp "$root/docs/COMMANDS.md" "$copy/docs/COMMANDS.md"
printf '%s\n' '# crates' 'high: low' 'low:' 'cola: high low std_like' 'apart: low' >"$copy/crates.txt"
touch "$copy/crates/cola/src/main.rt" "$copy/crates/"{low,high,apart}/src/lib.rt
cat >"$room/bin/rt" <<'PLAYED'
#!/bin/sh
[ "$1" != version ] || exec cat "$PLAYS/version"
crate=${PWD##*/}
echo 'rt: proving'
# As rt does, it takes a name that is no line of crates.txt for a library of the kit.
list=crates.txt
[ -e "$list" ] || list=../../crates.txt
for it in $(sed 's/#.*//; s/^[^:]*://' "$list"); do
    [ ! -d "$CRATES/$it" ] || grep -q "^$it[ :]" "$list" || { echo "rt: no crate $it is listed"; exit 2; }
done
if [ "$1" = lib ]; then
    for it in $(sed 's/[: ].*//' "$list"); do
        [ "$it" = "$crate" ] || [ -e "../$it/out/rlib/stamp" ] || { echo "rt: $it is not built"; exit 2; }
    done
    # What is built of these texts is not built again.
    stamp=$(cat ../*/src/* ../*/specs/* "$PLAYS/version" 2>/dev/null | sha256sum)
    [ "$(cat out/rlib/stamp 2>/dev/null)" != "$stamp" ] || exit 0
    rm -rf out/rlib
    mkdir -p out/incremental out/rlib
    echo $$ >>out/incremental/begun
    echo "$crate" >>"$BUILDS.lib"
    [ ! -e "$PLAYS/refuse $crate" ] || { echo 'rt: not proved' >&2; exit 1; }
    [ ! -e "$PLAYS/kill $crate" ] || { rm "$PLAYS/kill $crate"; exit 247; }
    [ ! -e "$PLAYS/hold $crate" ] || exec sleep 600
    while [ -e "$PLAYS/wait $crate" ]; do sleep 0.1; done
    echo "$stamp" >out/rlib/stamp
    exit
fi
echo "$*" >>"$BUILDS"
sleep 0.2
mkdir -p out
{
    echo '#!/bin/sh'
    echo 'for it in "$@"; do printf "<%s>\n" "$it"; done; pwd; cat; exit "${1:-0}"'
} >out/new
chmod +x out/new
mv out/new out/cola
PLAYED
chmod +x "$room/bin/rt"
export BUILDS=$room/builds PLAYS=$room/plays CRATES=$copy/crates
mkdir "$PLAYS"
echo 'played 1' >"$PLAYS/version"
: >"$BUILDS"
PATH=$room/bin:$PATH
builds() { [ "$(wc -l <"$BUILDS")" -eq "$1" ] || { printf 'it built %s times\n' "$(wc -l <"$BUILDS")"; false; }; }
# soon COMMAND..: waits until the command ends with 0, at most a minute.
soon() {
    local it
    for it in $(seq 300); do "$@" && return; sleep 0.2; done
    false
}
# proved NAMES: whether these crates below the program were given to rt since the last call, in this order.
proved() {
    local found
    found=$(cat "$BUILDS.lib" 2>/dev/null | tr '\n' ' ')
    rm -f "$BUILDS.lib"
    [ "$found" = "$1" ] || { printf 'rt was given: %s\n' "$found"; false; }
}

mkdir "$room/elsewhere"
cd "$room/elsewhere" || exit 1
run "$copy/cola" 0 'two words' '' '*' $'a\nb' -- "\$x" <<<'some input'
check 'the first use builds' builds 1
check 'what the program stands on is proved first, each crate behind those that it uses' proved 'low high '
check 'what was built of it is in its place' test -s "$copy/crates/low/out/rlib/stamp" -a -s "$copy/crates/high/out/rlib/stamp"
check 'nothing is left of the rooms that it was proved in' test ! -e "$copy/crates/cola/out/rooms"
check 'words, working folder and input are passed as they are' \
    wrote_text $'<0>\n<two words>\n<>\n<*>\n<a\nb>\n<-->\n<$x>\n'"$PWD"$'\nsome input\n'
check 'a build says how long it usually takes' grep -q '^cola: .*minutes' "$room/err"
log=$(sed -n 's/^cola: .* goes to //p' "$room/err")
check 'what rt says of a build is in the log that it names' test "$(cat "$log")" = $'== low\nrt: proving\n== high\nrt: proving\n== cola\nrt: proving'
check 'and not on standard error' test "$(grep -vc '^cola: ' "$room/err")" -eq 0
for wanted in 0 1 2 3 4 5 8 9 18 255; do
    run "$copy/cola" "$wanted" </dev/null
    check "status $wanted is kept" ended "$wanted"
done
check 'a built program is not built again' builds 1
run "$copy/cola" 0 </dev/null
check 'a built program that ends with 0 runs with no word of the launcher' is_silent
# What it says that a status means: what the program says.
"$root/tests/rows.sh" --statuses | sed '/^0 /d' >"$room/statuses"
check 'the program has its statuses' test "$(wc -l <"$room/statuses")" -eq 18
while read -r number meaning; do
    [ "$number" -ne 2 ] || continue
    run "$copy/cola" "$number" </dev/null
    check "status $number means what the program says" \
        test "$(cat "$room/err")" = "cola: the program ended with status $number: $meaning (cola help statuses has what to do)"
done <"$room/statuses"
touch "$copy/crates/cola/src/main.rt"
run "$copy/cola" 0 </dev/null
check 'a touched file with the same text is not built again' builds 1
echo '// new' >>"$copy/crates/low/src/lib.rt"
run "$copy/cola" 0 </dev/null
check 'a changed text below the program is built' builds 2
check 'and proved, with what stands on it' proved 'low high '
echo '// new' >>"$copy/crates/high/src/lib.rt"
run "$copy/cola" 0 </dev/null
check 'what stands below a changed text is not proved again' proved 'high '
touch -d '1 minute' "$copy/crates/low/src/lib.rt"
echo '// newest' >>"$copy/crates/high/src/lib.rt"
run "$copy/cola" 0 </dev/null
check 'nor where its text is newer and the same' proved 'high '
touch "$copy/crates/low/src/lib.rt"
echo 'played 2' >"$PLAYS/version"
echo '// of a new kit' >>"$copy/crates/high/src/lib.rt"
run "$copy/cola" 0 </dev/null
check 'with another toolchain it is' proved 'low high '
echo '// new' >>"$copy/crates/apart/src/lib.rt"
run "$copy/cola" 0 </dev/null
check 'a changed text beside the program is not built' builds 5
mkdir "$copy/crates/low/specs"
touch "$copy/crates/low/specs/Lib.antt"
run "$copy/cola" 0 </dev/null
check 'a new file is built' builds 6
rm -r "$copy/crates/low/specs"
run "$copy/cola" 0 </dev/null
check 'a removed file is built' builds 7
rm -f "$BUILDS.lib"
echo '# other' >>"$copy/crates/cola/out/cola"
run "$copy/cola" 0 </dev/null
check 'another program in its place is built anew' builds 8
check 'and nothing that it stands on' proved ''
rm "$copy/crates/cola/out/cola.launcher"
run "$copy/cola" 0 </dev/null
check 'what rt built without the launcher is taken' builds 8
rm "$copy/crates/cola/out/cola.launcher"
touch -d '1 minute' "$copy/crates/low/src/lib.rt"
run "$copy/cola" 0 </dev/null
check 'what rt built of older texts is built again' builds 9
touch "$copy/crates/low/src/lib.rt"
rm -rf "$copy/crates/"{low,high,cola}/out "$BUILDS.lib"
for it in 1 2 3; do "$copy/cola" "$it" </dev/null >"$room/out$it" 2>/dev/null & done
wait
check 'of three launches at once one builds' builds 10
check 'and proves each crate once' proved 'low high '
check 'of three launches at once each runs the program' \
    test "$(head -n 1 -q "$room"/out[123])" = $'<1>\n<2>\n<3>'

# A proof that is refused, one that is killed, and launches that are ended.
echo '// newer' >>"$copy/crates/low/src/lib.rt"
touch "$PLAYS/refuse low"
run "$copy/cola" 0 </dev/null
check 'a refused build ends with 101' ended 101
check 'a refused build runs nothing' wrote_text ''
check 'a refused build shows what rt said' grep -q '^rt: not proved' "$room/err"
check 'and of which crate' grep -q '^cola: .* low' "$room/err"
check 'a refused build says so, and where all is said' grep -qF "cola: the program was not built: $log" "$room/err"
check 'what stands on a refused crate is not begun' proved 'low '
run "$copy/cola" 0 </dev/null
check 'a refused build is tried again' ended 101
rm "$PLAYS/refuse low" "$BUILDS.lib"
touch "$PLAYS/kill low"
run "$copy/cola" 7 </dev/null
check 'after a refusal a build runs the program' ended 7
if [ "$(nproc 2>/dev/null || getconf _NPROCESSORS_ONLN)" -gt 1 ] && [ "$(awk '/^MemAvailable:/ { print int($2 / 4000000) }' /proc/meminfo)" -gt 0 ]; then
    check 'a proof that was killed is tried again' proved 'low low high '
fi
rm -f "$BUILDS.lib"
echo '// newest' >>"$copy/crates/low/src/lib.rt"
touch "$PLAYS/hold high"
set -m # (a launch with a process group of its own, as a terminal starts it)
"$copy/cola" 0 </dev/null >"$room/out" 2>"$room/err" &
launcher=$!
set +m
soon grep -qs high "$BUILDS.lib"
kill -INT -- "-$launcher"
wait "$launcher"
status=$?
check 'Ctrl-C ends a launch by that signal' ended 130
check 'and says that the next goes on' grep -q '^cola: stopped; .*the next launch goes on' "$room/err"
check 'and ends the proofs' bash -c '! kill -0 "$1" 2>/dev/null' - "$(tail -n 1 "$copy/crates/high/out/incremental/begun")"
check 'and leaves no room' test ! -e "$copy/crates/cola/out/rooms"
rm "$PLAYS/hold high"
check 'until then it began these' proved 'low high '
begun=$(wc -l <"$copy/crates/high/out/incremental/begun")
run "$copy/cola" 0 </dev/null
check 'the next launch takes what was proved' proved 'high '
check 'and goes on with what was kept' test "$(wc -l <"$copy/crates/high/out/incremental/begun")" -eq $((begun + 1))
check 'and runs the program' ended 0
echo '// and newer' >>"$copy/crates/low/src/lib.rt"
touch "$PLAYS/wait high"
"$copy/cola" 0 </dev/null >/dev/null 2>&1 &
launcher=$!
disown
soon grep -qs high "$BUILDS.lib"
kill -KILL "$launcher"
"$copy/cola" 0 </dev/null >"$room/out" 2>"$room/err" &
launcher=$!
soon grep -qs 'waiting for another' "$room/err"
rm "$PLAYS/wait high"
wait "$launcher"
status=$?
check 'a launch after one that was killed runs the program' ended 0
check 'and says that it waits for the proofs that go on' grep -q '^cola: waiting for another launch' "$room/err"
check 'and takes what they proved' proved 'low high '
if command -v script >/dev/null; then
    echo '// newest of all' >>"$copy/crates/low/src/lib.rt"
    touch "$PLAYS/wait high"
    { soon grep -qs 'under way: high' "$room/typed"; sleep 2; rm "$PLAYS/wait high"; } &
    script -qefc "'$copy/cola' 0" "$room/typed" </dev/null >/dev/null
    wait
    check 'a terminal shows how far it is' grep -q 'cola: [12] of 3 crates proved, 0 minutes; under way: high' "$room/typed"
    check 'in one line that is renewed' test "$(grep -c 'crates proved' "$room/typed")" -eq 1
fi
rm -f "$BUILDS.lib"

# The crates of this checkout, with the played toolchain: the launcher proves those that the program stands on, each once, with all
# that it uses listed and built.
whole=$room/whole CRATES=$room/whole/crates
mkdir -p "$whole/docs"
cp "$root/cola" "$root/crates.txt" "$whole"
cp "$root/docs/COMMANDS.md" "$whole/docs/COMMANDS.md"
for it in $(sed 's/#.*//; s/[: ].*//' "$root/crates.txt"); do
    mkdir -p "$whole/crates/$it/src"
    cp "$root/crates/$it"/src/*.rt "$whole/crates/$it/src/"
done
its_own() { awk -F: -v crate="$1" '{ sub(/#.*/, ""); split($1, word, " ") } word[1] == crate { print $2 }' "$root/crates.txt"; }
under=' cola '
while before=$under; do
    for it in $under; do
        for its in $(its_own "$it"); do
            [ ! -d "$CRATES/$its" ] || [[ $under = *" $its "* ]] || under="$under$its "
        done
    done
    [ "$under" != "$before" ] || break
done
run "$whole/cola" 0 </dev/null
check 'the crates of this checkout are proved and built' ended 0
check 'no list of them lacks a crate that it uses' test -z "$(cat "$room/err" "$whole"/crates/cola/out/*.log | grep 'rt: no crate')"
check 'those that the program stands on, each once' test "$(sort "$BUILDS.lib")" = "$(tr ' ' '\n' <<<"$under" | sed '/^$/d; /^cola$/d' | sort)"
met=' '
while read -r crate; do
    for it in $(its_own "$crate"); do
        [ ! -d "$CRATES/$it" ] || [[ $met = *" $it "* ]] || echo "$crate is before $it"
    done
    met="$met$crate "
done <"$BUILDS.lib" >"$room/order"
check 'each behind those that it uses' test ! -s "$room/order"

rm -r "$copy/crates/cola/out"
PATH=$without_rt run "$copy/cola" 0 </dev/null
check 'with no rt and nothing built it ends with 100' ended 100
check 'with no rt and nothing built it says so in one line' complained PATH

finish
