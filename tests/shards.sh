#!/usr/bin/env bash
# The script that serves a session over several files: its replies are those of one file, for worked lines and for made ones.
# The last line is 'N passed, M failed', and the status is 0 only where none failed.
. "$(dirname "$0")/lib.sh"

shards=$root/examples/shards.sh
"$root/cola" mem 4 </dev/null >/dev/null || exit 1 # (says what it does where it still has to build)
cd "$room" || exit 1

# same WHAT FOLDER: whether the lines of the file `lines` are answered over the files of FOLDER as over one file.
same() {
    "$shards" run "$2" <lines >written 2>err || { cat err; return 1; }
    "$root/cola" run one <lines >wanted
    diff wanted written
}

"$root/cola" create one --keys 3000
check 'files are made' "$shards" create three 1000 k3 k7
check 'one for each part' test "$(ls three | tr '\n' ' ')" = '0 1 2 bounds '
printf '%s\n' 'put k1 a' 'put k3 b' 'put k69 c' 'put k7 d' 'put k8 e' '' count 'get k3' 'get k' 'get k7' 'range k k9' \
    'range k3 k7' 'range k3 k70' 'range k9 k' 'range k7 k7' 'scan k 3' 'scan k 9' 'scan k2 0' 'scan k69 2' 'scan k x' 'range k' nothing \
    'put  v' 'put k4' 'put k4 x y' 'del k69' 'del k69' 'put k1 z' close close 'get k1' count 'range k k9' open open count \
    $'get k8\r' $'\r' "put $(printf 'k%.0s' {1..30}) v" "range k1 $(printf 'k%.0s' {1..30})" "scan $(printf 'k%.0s' {1..30}) 2" 'stamp k1' >lines
check 'worked lines' same worked three
awk 'BEGIN {
    srand(3)
    for (at = 0; at < 600; at++) {
        key = "k" int(rand() * 100)
        kind = rand()
        if (kind < 0.5) print "put " key " v" at
        else if (kind < 0.65) print "del " key
        else if (kind < 0.8) print "get " key
        else if (kind < 0.85) print "count"
        else if (kind < 0.93) print "range " key " k" int(rand() * 100)
        else print "scan " key " " int(rand() * 20)
    }
}' >lines
check 'made lines' same made three
check 'again' same again three
"$shards" create single 3000
printf '%s\n' 'put a 1' 'range a b' count >lines
check 'no bound is one file' test "$("$shards" run single <lines | tr '\n' ' ')" = 'new row a 1 end 1 count 1 '
check 'bounds that do not rise are refused' eval '! "$shards" create wrong 10 k7 k3 2>/dev/null'
for at in 0 1 2; do printf '%s' "$("$root/cola" check "three/$at") "; done >sound
check 'what is left is sound' grep -Eqx '(sound [0-9]+ ){3}' sound
printf '\001' | dd of=three/1 bs=1 seek=14 conv=notrunc status=none
printf '%s\n' 'get k1' 'get k4' 'get k8' >lines
"$shards" run three <lines >written 2>err
check 'a session that one file refuses ends with its status' test $? -eq 7
check 'the lines before it are answered' test "$(wc -l <written)" -eq 1
check 'and it is said which file it was' grep -q '^shards: the session over file 1 ended before it answered' err

finish
