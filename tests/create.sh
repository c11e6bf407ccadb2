#!/usr/bin/env bash
# Files that the program makes, in a folder of its own: their size and their bytes, the statuses of
# `create`, and that no other words make or change a file. It runs the program through ./cola, which
# builds it where rt ci has not.
# The last line is 'N passed, M failed', and the status is 0 only where none failed.
. "$(dirname "$0")/lib.sh"

# ends STATUS WORD..: whether the program, with these words and no input, ends so and writes nothing.
ends() {
    local wanted=$1 status
    shift
    "$root/cola" "$@" </dev/null >"$room/out" 2>"$room/err"
    status=$?
    [ ! -s "$room/out" ] && [ "$status" -eq "$wanted" ] || { printf 'it ended with status %s\n' "$status"; false; }
}

has_size() { [ "$(stat -c %s "$room/$1")" -eq "$2" ]; }
begins() { [ "$(head -c 24 "$room/$1" | od -An -v -tx1 | tr -d ' \n')" = "$2" ]; }
is_zero_behind() { [ -z "$(tail -c +25 "$room/$1" | tr -d '\0' | head -c 1)" ]; }
is_same() { cmp -s "$room/$1" "$room/$2"; }
is_absent() { [ ! -e "$room/$1" ]; }
complained() { [ "$(wc -l <"$room/err")" -eq 1 ] && grep -q "$1" "$room/err"; }

"$root/cola" mem 4 </dev/null >/dev/null || exit 1 # (says what it does where it still has to build)
cd "$room" || exit 1

check 'a new file for one key ends with 0' ends 0 create one --keys 1
check 'a new file for one key has 128 cells of 64 bytes' has_size one 8192
check 'a new file begins with its header' \
    begins one 434f4c4153544f5201000000050300000100000000000000
check 'a new file is zero behind the sizes of its header' is_zero_behind one
cp one before
check 'a second create ends with 8' ends 8 create one --keys 33
check 'status 8 is told in one line' complained 'status 8: '
check 'a second create changes nothing' is_same one before
printf x >some
check 'a file with a byte in it is not laid out' ends 8 create some --keys 1
check 'a file with a byte in it stays' has_size some 1
: >none
check 'an empty file is laid out' ends 0 create none --keys 33
check 'a file for 33 keys has 256 cells' has_size none 16384
check 'options stand in any order' ends 0 create two --version 2 --block 6 --keys 33
check 'a file of version 2 has cells of 128 bytes' has_size two 32768
check 'a file of version 2 says so' begins two 434f4c4153544f5202000000060400002100000000000000
check 'a file of version 1 is upgraded' ends 0 upgrade one wide
check 'an upgraded file has cells of 128 bytes' has_size wide 16384
check 'an upgraded file says so' begins wide 434f4c4153544f5202000000050300000100000000000000
check 'an upgrade reads its file alone' is_same one before
check 'a file of version 2 is not upgraded again' ends 12 upgrade wide more
check 'an upgrade that is refused makes no file' is_absent more
check 'no file is upgraded to itself' ends 8 upgrade one one
check 'a file with a byte in it is no store' ends 6 upgrade some more
check 'a file that is not there is not upgraded' ends 5 upgrade missing more
check 'an upgrade makes no file to read' is_absent missing
check 'a file that is not there is not tested' ends 5 check missing
check 'a test makes no file' is_absent missing
check 'a file with a byte in it is not tested' ends 6 check some
check 'a folder that is not there ends with 5' ends 5 create there/one --keys 1
check 'status 5 is told' grep -q 'status 5: ' "$room/err"
check 'a folder in place of a file ends with 5' ends 5 create . --keys 1
for words in 'create no' 'create no --keys 0' 'create no --keys 16777217' 'create no --keys 32 --block 6' \
    'create no --keys=32' 'create no --keys 32 --keys 32' 'create --keys 32 no' 'gen no' 'gen no --keys 8 --block 5' 'check' 'check no more'; do
    # (each of the words is a word of its own)
    check "$words ends with 2" ends 2 $words
    check "$words makes no file" is_absent no
done

finish
