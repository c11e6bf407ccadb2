#!/usr/bin/env bash
# Sessions over two real files, and files made equal again, in a folder of its own. Where a small file system can be mounted
# in memory, one of the files stands on it and fails in mid-session for want of room; where none can, that is skipped and said.
# The last line is 'N passed, M failed', and the status is 0 only where none failed.
. "$(dirname "$0")/lib.sh"
mounted=
trap 'cd /; [ -z "$mounted" ] || umount "$room/small"; rm -rf "$room"' EXIT

# replies STATUS REPLIES LINES WORD..: whether the program, with these words and these lines, each given with commas for
# line feeds, writes these replies and ends so.
replies() {
    local wanted=$1 written=$2 lines=$3 status
    shift 3
    printf '%s' "$lines" | tr ',' '\n' | "$root/cola" "$@" >"$room/out" 2>"$room/err"
    status=$?
    [ "$status" -eq "$wanted" ] || { printf 'it ended with status %s\n' "$status"; return 1; }
    [ "$(tr '\n' ',' <"$room/out")" = "$written" ] || { cat "$room/out"; return 1; }
}

is_same() { cmp -s "$room/$1" "$room/$2"; }

"$root/cola" mem 4 </dev/null >/dev/null || exit 1 # (says what it does where it still has to build)
cd "$room" || exit 1

"$root/cola" create notes --keys 1000 || exit 1
cp notes other
check 'a session over two files' replies 0 'new,val Ada,' 'put user:1001 Ada,get user:1001,' run notes --mirror other
check 'writes both' is_same notes other
check 'and each of them serves alone' replies 0 'val Ada,' 'get user:1001,' run other
"$root/cola" run notes <<<'put user:1002 Grace' >/dev/null || exit 1
check 'two files that differ end with 16' replies 16 '' 'get user:1001,' run notes --mirror other
check 'a rebuild makes them equal' replies 0 '' '' rebuild notes other
check 'byte for byte' is_same notes other
check 'and they serve again' replies 0 'val Grace,' 'get user:1002,' run notes --mirror other --cache 16
check 'a rebuild makes a file that is not there' replies 0 '' '' rebuild notes third
check 'equal too' is_same notes third
printf x >>third
check 'a rebuild onto a file of another length ends with 8' replies 8 '' '' rebuild notes third
check 'a mirror that is not there ends with 5' replies 5 '' 'count,' run notes --mirror missing
check 'and is not made' [ ! -e missing ]

# A file with holes, on a file system that has no room to fill them.
mkdir small
if mount -t tmpfs -o size=16k none small 2>/dev/null; then
    mounted=yes
    "$root/cola" create full --keys 1000 || exit 1
    cp --sparse=always full small/full || exit 1
    lines=$(for i in $(seq 1 900); do printf 'put k%03d %d,' "$i" "$i"; done)
    news=$(for i in $(seq 1 900); do printf 'new,'; done)
    check 'a mirror without room is lost in mid-session, and the first file goes on' \
        replies 18 "$news" "$lines" run full --mirror small/full
    check 'with all that was put' replies 0 'count 900,val 900,' 'count,get k900,' run full
    check 'the lost one differs' replies 16 '' 'count,' run full --mirror small/full
    umount small && mounted=
    check 'it is made again elsewhere' replies 0 '' '' rebuild full mended
    check 'and mirrors the first' replies 0 'val 900,' 'get k900,' run full --mirror mended
else
    echo 'mirror: no small file system can be mounted here; a side that runs out of room is skipped'
fi

finish
