#!/usr/bin/env bash
# Memory that no contract speaks of: a call that forgets a value, leaks it, or takes an allocator out of one that it has can
# take memory and never give it back, and is proved all the same. So no text of the crates names what does that, but for
# those listed here, each with its reason. The last line is 'N passed, M failed', and the status is 0 only where none failed.
set -u
root=$(cd "$(dirname "$0")/.." && pwd -P) || exit 1
cd "$root" || exit 1
passed=0 failed=0

# What may stand where: a file, the text, and why.
allowed='
crates/cola_rows/src/shown.rt allocator() a program of the tests, which prints
crates/cola_handle/src/loose.rt into_raw the box behind the pointer that C holds, until it is made of it again
crates/cola_handle/src/loose.rt from_raw the same
crates/cola_mapped/src/lent.rt from_raw a slice of bytes that a caller lends, which are none of the heap
'

# What takes memory out of sight.
words='mem::forget|mem::\{[^}]*forget|ManuallyDrop|allocator\(\)|\bleak\b|into_raw|from_raw'

check() {
    if [ "$2" -eq 0 ]; then
        passed=$((passed + 1))
    else
        failed=$((failed + 1))
        printf 'FAILED: %s\n' "$1"
    fi
}

for folder in crates/*/src; do
    found=$(grep -rnoE "$words" "$folder" --include='*.rt' | while IFS=: read -r file line word; do
        grep -qF -- "$file $word " <<<"$allowed" || printf '%s:%s: %s\n' "$file" "$line" "$word"
    done)
    [ -z "$found" ]
    check "$folder names nothing that takes memory out of sight${found:+: $found}" $?
done
while read -r file word _; do
    [ -n "$file" ] || continue
    grep -qF -- "$word" "$file"
    check "$file still names $word, as the list has it" $?
done <<<"$allowed"
printf '%s passed, %s failed\n' "$passed" "$failed"
[ "$failed" -eq 0 ]
