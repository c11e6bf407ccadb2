#!/usr/bin/env bash
# An index of the words of a text, in a store: under each word stand the number of the first line that has it, and how
# often it stands there in all. Then the index is asked for one word, and for all words from one to another.
#
#     examples/words.sh < examples/sonnet.txt
set -eu
cola=$(cd "$(dirname "$0")/.." && pwd -P)/cola
room=$(mktemp -d)
trap 'rm -rf "$room"' EXIT

"$cola" create "$room/index" --keys 10000
tr -cs 'A-Za-z\n' ' ' | tr 'A-Z' 'a-z' | awk '
    { for (at = 1; at <= NF; at++) if (length($at) <= 24) { if (!($at in first)) first[$at] = NR; count[$at]++ } }
    END { for (word in count) print "put " word " line:" first[word] ",times:" count[word] }
' | "$cola" run "$room/index" >"$room/replies"
printf '%s words\n' "$(grep -c '^new$' "$room/replies")"
printf '%s\n' 'get summer' 'get winter' 'range so su' | "$cola" run "$room/index"
