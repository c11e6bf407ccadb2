#!/bin/sh
# One ordered map over several files, for more keys than one file is for, or for sessions side by side. The keys below the
# first bound are in the file FOLDER/0, those from it on and below the second one in FOLDER/1, and so on.
#
#     examples/shards.sh create FOLDER KEYS BOUND..    a file for KEYS keys for each part; the bounds rise
#     examples/shards.sh run FOLDER <lines             a session over all of them
#
# The lines are sorted into a text for each file; the sessions run side by side; the replies are put together in the order of
# the lines: rows of a range come from one file after the other, counts are sums. So replies come when the input has ended.
# It ends with the greatest status of the sessions. A put is `full` where its own file is. COLA names another launcher.
set -eu
cola=${COLA:-$(cd "$(dirname "$0")/.." && pwd -P)/cola}
export LC_ALL=C

# Sorts lines into IN.0, IN.1 .., and writes for each line that has a reply how it is put together, and of which files.
sort_lines() {
    awk -v room="$room" '
        function file_of(key,    at) { for (at = files + 0; at > 0 && key "" < bound[at] ""; at--); return at }
        function give(kind, first, last, most,    at) {
            if (last < first) last = first
            for (at = first; at <= last; at++) print line >(room "/in." at)
            print kind, first, last, most
        }
        FILENAME == ARGV[1] { bound[++files] = $0; next }
        { line = $0; sub(/\r$/, "", line); count = split(line, word, / /) }
        line == "" { next }
        line == "count" || line == "open" || line == "close" { give(line, 0, files + 0, 0); next }
        word[1] == "range" && count == 3 { give("rows", file_of(word[2]), file_of(word[3]), 1e11); next }
        word[1] == "scan" && count == 3 && word[3] ~ /^[0-9]+$/ { give("rows", file_of(word[2]), files + 0, word[3]); next }
        { give("one", count > 1 ? file_of(word[2]) : 0, 0, 0) }
    ' "$folder/bounds" - >"$room/order"
}

# Puts the replies together. The reply to a line over several files is the sum of theirs, or the first that has none.
merge_replies() {
    awk -v room="$room" '
        function missing(at) { print "shards: the session over file " at " ended before it answered" >"/dev/stderr"; exit 1 }
        # The last line of a reply; its rows are written, up to most of them.
        function reply(at, most,    line) {
            rows = 0
            while ((getline line <(room "/out." at)) > 0) {
                if (line !~ /^row /) return line
                if (rows < most) { print line; rows++ }
            }
            missing(at)
        }
        # Whether the last line of a reply is the one that a sum goes by.
        function is_right(last) {
            if ($1 == "close") return last == "closed"
            return index(last, ($1 == "rows" ? "end" : $1) " ") == 1
        }
        $1 == "one" { print reply($2, 0); next }
        {
            left = $4
            sum = 0
            wrong = ""
            for (at = $2; at <= $3; at++) {
                last = reply(at, wrong == "" ? left : 0)
                left -= rows
                sum += $1 == "rows" ? rows : substr(last, length($1) + 2)
                if (wrong == "" && !is_right(last) && (left > 0 || $1 != "rows")) wrong = last
            }
            print wrong != "" ? wrong : $1 == "close" ? "closed" : ($1 == "rows" ? "end" : $1) " " sum
        }
    ' "$room/order"
}

run() {
    room=$(mktemp -d)
    trap 'rm -rf "$room"' EXIT
    files=$(wc -l <"$folder/bounds")
    for at in $(seq 0 "$files"); do : >"$room/in.$at"; done
    sort_lines
    for at in $(seq 0 "$files"); do
        { status=0; "$cola" run "$folder/$at" <"$room/in.$at" >"$room/out.$at" || status=$?; echo "$status" >"$room/status.$at"; } &
    done
    wait
    worst=$(sort -n "$room"/status.* | tail -n 1)
    merge_replies || [ "$worst" -ne 0 ] || worst=1
    return "$worst"
}

case ${1-} in
create)
    folder=$2 keys=$3
    shift 3
    mkdir -- "$folder"
    : >"$folder/bounds"
    [ $# -eq 0 ] || printf '%s\n' "$@" >"$folder/bounds"
    sort -uc "$folder/bounds"
    for at in $(seq 0 $#); do "$cola" create "$folder/$at" --keys "$keys"; done
    ;;
run)
    folder=$2
    run
    ;;
*)
    sed -n 's/^# \{0,1\}//; 2,10p' "$0" >&2
    exit 2
    ;;
esac
