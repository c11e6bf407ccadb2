#!/usr/bin/env bash
# What a signal leaves: Ctrl-C at a terminal (a tmux of its own), INT, TERM and HUP to the launcher and to its group, with pipes;
# a second one; the other modes; the program without the launcher. It runs the program through ./cola, which builds it where
# rt ci has not, or through the launcher that is given. The last line is 'N passed, M failed', and the status is 0 only where
# none failed.
#
#     tests/signals.sh [LAUNCHER]
set -u
# (a shell below nohup is deaf to HUP, and so is all that it starts)
[ "${deaf:-yes}" = no ] || deaf=no exec env --default-signal "$0" "$@"
set -m # (else what runs in the background would ignore INT)
root=$(cd "$(dirname "$0")/.." && pwd -P) || exit 1
cola=$(readlink -f -- "${1:-$root/cola}") || exit 1
room=$(mktemp -d) || exit 1
trap 'command tmux -L "cola$$" kill-server 2>/dev/null; for it in $(jobs -p); do kill -KILL -- "-$it" 2>/dev/null; done; rm -rf "$room"' EXIT
passed=0 failed=0

# check WHAT COMMAND..: counts whether the command ends with 0.
check() {
    local what=$1
    shift
    if "$@"; then
        passed=$((passed + 1))
    else
        failed=$((failed + 1))
        printf 'FAILED: %s\n' "$what"
    fi
}
ended() { [ "$status" -eq "$1" ] || { printf 'it ended with status %s\n' "$status"; cat err; false; }; }
said() { grep -q -- "$1" err || { cat err; false; }; }
wrote() { printf '%s' "$1" | cmp - out || { cat out err; false; }; }
# state FILE: 0 where it is closed, 1 where it is in use.
state() { [ "$(od -An -tu1 -j14 -N1 "$1" 2>/dev/null | tr -d ' ')" = "$2" ]; }
# holds FILE LINES: whether a scan of the file gives these rows, given with commas for line feeds.
holds() { [ "$(echo 'scan ! 16777216' | "$cola" run "$1" 2>&1 | tr '\n' ',')" = "$2" ]; }
# until_ COMMAND..: waits, for twenty seconds at most.
until_() {
    local it
    for it in $(seq 400); do
        "$@" && return
        sleep 0.05
    done
    echo "waited in vain: $*"
    return 1
}
has_lines() { [ "$(wc -l <"$1")" -ge "$2" ]; }

# begin LAUNCHER WORD..: starts a session over a new pipe, which this shell writes by 8; its process is in $process.
begin() {
    rm -f lines
    mkfifo lines
    "$@" <lines >out 2>err &
    process=$!
    exec 8>lines
}
# end: waits for it, closes the pipe, and leaves the status.
end() {
    wait "$process" 2>/dev/null
    status=$?
    exec 8>&-
}
# The program of a session under a launcher.
program_of() { pgrep -P "$(pgrep -P "$1" -x perl)"; }

"$cola" mem 4 </dev/null >/dev/null || exit 1 # (says what it does where it still has to build)
cd "$room" || exit 1
mkfifo replies
"$cola" create empty --keys 1000 || exit 1

# One signal ends the input behind the last whole line, and the session is closed.
for it in INT:130 TERM:143 HUP:129; do
    name=${it%:*}
    cp empty "$name"
    begin "$cola" run "$name"
    printf 'put a 1\nput b 2\n' >&8
    until_ has_lines out 2
    printf 'put c' >&8
    sleep 0.1
    kill -"$name" "$process"
    end
    check "$name ends a session with ${it#*:}" ended "${it#*:}"
    check "$name is told" said "^cola: $name ended the input"
    check "and that a line was dropped" said '^cola: a line that no line feed had ended was dropped'
    check "$name leaves the replies of whole lines" wrote $'new\nnew\n'
    check "$name leaves a closed file" state "$name" 0
    check "$name leaves what whole lines put" holds "$name" 'row a 1,row b 2,end 2,'
done
cp empty group
begin "$cola" run group
echo 'put a 1' >&8
until_ has_lines out 1
kill -TERM -"$process"
end
check 'TERM to all processes of a session ends it with 143' ended 143
check 'and leaves a closed file' state group 0
begin "$cola" mem 4
echo 'put a 1' >&8
until_ has_lines out 1
kill -INT "$process"
end
check 'INT ends a session in memory with 130' ended 130
cp empty twofold
begin "$cola" run twofold
echo 'put a 1' >&8
until_ has_lines out 1
kill -TERM "$process" && kill -TERM "$process" && kill -TERM -"$process"
end
check 'signals that come at once, as timeout sends them, are one' ended 143
check 'and leave a closed file' state twofold 0
deaf() {
    trap '' HUP
    exec "$@"
}
begin deaf "$cola" run twofold
echo 'put b 2' >&8
until_ has_lines out 1
kill -HUP -"$process"
sleep 0.2
echo 'put c 3' >&8
until_ has_lines out 2
exec 8>&-
end
check 'a signal that the launcher was told to ignore is ignored' ended 0
check 'and the session goes on' holds twofold 'row a 1,row b 2,row c 3,end 3,'

# A writer that dies of the same signal, or lives on, and has cut a line. No key and no value is cut.
whole() { # FILE: whether each reply is there, and each row as it was sent
    echo 'scan ! 16777216' | "$cola" run "$1" >rows 2>>err
    [ "$(grep -c '^new$' out)" -eq "$(sed -n 's/^end //p' rows)" ] && ! sed '$d' rows | grep -vqE '^row k([0-9]{9}) v\1$'
}
"$cola" create many --keys 100000 || exit 1
for it in group:INT:130 group:TERM:143 launcher:TERM:143 launcher:INT:130; do
    cp --sparse=always many stream
    name=${it#*:} number=${it##*:}
    name=${name%:*}
    seq 1 100000000 | awk '{ printf "put k%09d v%09d\n", $1, $1 }' 2>/dev/null | "$cola" run stream >out 2>err &
    process=$!
    until_ has_lines out 300
    if [ "${it%%:*}" = group ]; then kill -"$name" -- "-$(ps -o pgid= -p "$process" | tr -d ' ')"; else kill -"$name" "$process"; fi
    wait "$process" 2>/dev/null
    status=$?
    check "$name to the ${it%%:*}, in a stream of lines, ends it with $number" ended "$number"
    check 'the file is closed' state stream 0
    check 'and no line was cut' whole stream
done
printf 'put k000000001 v000000001\nput k000000002 v0000' >cut
cp empty stream
(cat cut; kill -INT 0; sleep 5) | "$cola" run stream >out 2>err &
process=$!
wait "$process" 2>/dev/null
status=$?
check 'a line that a dying writer has cut is not carried out' whole stream
check 'and it ends with 130' ended 130

# A second signal within two seconds ends the program at once: here it waits for a reader of its replies.
to_replies() { exec "$@" >replies; }
blocked() { # FILE: begins a session that cannot write its replies
    cp empty "$1"
    exec 7<>replies
    begin to_replies "$cola" run "$1"
    { seq 1 900 | sed 's/.*/put k& v/'; for it in $(seq 9); do echo 'scan ! 1000'; done; } >&8
    until_ state "$1" 1
    sleep 0.5
}
blocked twice
kill -INT "$process"
sleep 0.5
kill -INT "$process"
end
check 'a second signal within two seconds ends the program at once' ended 130
check 'and it is said what that leaves' said '^cola: twice: was not closed, and is refused from now on, with status 7'
check 'the file is refused' state twice 1
exec 7>&-
blocked slow
kill -HUP "$process"
sleep 0.3
kill -HUP "$process"
sleep 2
kill -INT "$process"
sleep 0.3
check 'neither a second HUP nor one that comes later does' kill -0 "$process"
cat <&7 >slow.out 8>&- &
reader=$!
wait "$process"
status=$?
exec 8>&-
check 'and once its replies are read it ends, as at the first' ended 129
check 'with its file closed' state slow 0
{ kill "$reader" && wait "$reader"; } 2>/dev/null
exec 7>&-

# The other modes end at once.
for it in INT:130 TERM:143; do
    name=${it%:*}
    begin "$cola" load "loaded$name" --keys 10
    printf 'row a 1\nrow b 2\nrow' >&8
    until_ test -e "loaded$name"
    sleep 0.2
    kill -"$name" "$process"
    end
    check "$name ends a load with ${it#*:}" ended "${it#*:}"
    check 'and it is said what that leaves' said "^cola: loaded$name: was not finished; remove it and begin again"
    "$cola" run "loaded$name" </dev/null >/dev/null 2>&1
    check 'the new file is no store' test $? -eq 6
done

# The program without the launcher has no handler.
direct=$root/crates/cola/out/cola
[ -x "$direct" ] && [ "$cola" = "$root/cola" ] || direct=$(dirname -- "$cola")/../libexec/cola/cola
for it in INT:130 TERM:143 HUP:129; do
    name=${it%:*}
    cp empty "alone$name"
    begin "$direct" run "alone$name"
    echo 'put a 1' >&8
    until_ has_lines out 1
    kill -"$name" "$process"
    end
    check "without the launcher $name ends the program at once" ended "${it#*:}"
    check 'and the file is refused' state "alone$name" 1
done
cp empty killed
begin "$cola" run killed
echo 'put a 1' >&8
until_ has_lines out 1
kill -KILL "$(program_of "$process")"
end
check 'a program that was killed ends the launcher with 137' ended 137
check 'which says what that is' said '^cola: the program ended with status 137: it was killed from outside'
check 'and what it leaves' said '^cola: killed: was not closed, and is refused from now on, with status 7'

# Without perl a signal ends the program of a session too.
mkdir bin
for it in awk basename cat cut df dirname env find flock grep head kill mv nproc printf readlink rm rt sed sha256sum sleep sort stat tail tr; do
    found=$(command -v "$it") && [ -x "$found" ] && ln -s "$(readlink -f "$found")" "bin/$it"
done
if (PATH=$room/bin; ! command -v perl >/dev/null && "$cola" mem 4 </dev/null); then
    cp empty bare
    begin env PATH="$room/bin" "$cola" run bare
    echo 'put a 1' >&8
    until_ has_lines out 1
    check 'without perl a session is served' wrote $'new\n'
    kill -INT "$process"
    end
    check 'and ended by INT at once' ended 130
    check 'which is said' said '^cola: bare: was not closed, and is refused from now on, with status 7'
fi

# What stands between the input and the program passes on any bytes, and a last line that no line feed ends.
{ head -c 100000 /dev/urandom; echo; printf 'put a\0b 1\nput a 1\r\n\n\n'; head -c 100000 /dev/zero | tr '\0' x; printf '\nput b 2\nget a\nget b'; } >bytes
"$direct" mem 100 <bytes >wanted
"$cola" mem 100 <bytes >out 2>err
check 'any bytes are answered as by the program alone' cmp wanted out
cat bytes | "$cola" mem 100 >out 2>err
check 'through a pipe too' cmp wanted out
"$cola" mem 4 <. >out 2>err
status=$?
check 'an input that fails ends it with 3' ended 3

# At a terminal.
if command -v tmux >/dev/null; then
    tmux() { command tmux -L "cola$$" -f /dev/null "$@"; }
    keys() { tmux send-keys -t room "$@"; }
    shows() { tmux capture-pane -p -t room -S - | grep -q -- "$1"; }
    tmux new-session -d -s room -x 100 -y 40 'exec bash --norc --noprofile'
    # session FILE [MORE]: begins one, once the one before is over, and waits until it has the file.
    session() {
        keys "clear; \$cola run $1 ${2:-}; echo ended \$?" Enter
        until_ state "$1" 1
    }
    cp empty typed
    keys "PS1='ready '; cola='$cola'; clear" Enter
    until_ shows '^ready'
    session typed
    keys 'put a 1' Enter
    until_ shows '^new'
    keys C-c
    check 'Ctrl-C at the prompt ends a session with 130' until_ shows '^ended 130'
    check 'it is told' shows 'INT ended the input'
    check 'and the file is closed' state typed 0
    session typed
    keys 'put b 2'
    until_ shows '^put b 2'
    keys C-c
    check 'Ctrl-C in the middle of a line does too' until_ shows '^ended 130'
    session typed
    keys 'put b 2' C-d
    until_ shows '^put b 2'
    sleep 0.2
    keys C-c
    check 'also where a part of it was read' until_ shows '^ended 130'
    check 'which is said' shows 'a line that no line feed had ended was dropped'
    check 'no part of a line was carried out' holds typed 'row a 1,end 1,'
    session typed
    keys C-c
    check 'and a session can be begun again' until_ shows '^ended 130'
    "$cola" load long --keys 30000 < <(seq -f 'row k%05.0f v' 1 30000) >/dev/null
    session long
    keys 'scan ! 30000' Enter
    until_ shows '^row'
    keys C-c
    check 'Ctrl-C in a long scan ends the session behind it' until_ shows '^ended 130'
    check 'with all its rows' shows '^end 30000'
    check 'and the file is closed' state long 0
    session typed '| cat'
    keys 'put z 1' Enter
    until_ shows '^new'
    keys C-c
    until_ state typed 0
    check 'Ctrl-C with a pipe of replies leaves a closed file' holds typed 'row a 1,row z 1,end 2,'
    tmux new-window "exec '$cola' run typed"
    until_ state typed 1
    tmux kill-server
    check 'a terminal that closes leaves a closed file' until_ state typed 0
    unset -f tmux
else
    echo 'signals: tmux is not here; a terminal is skipped'
fi

echo "$passed passed, $failed failed"
[ "$failed" -eq 0 ]
