#!/usr/bin/env bash
# Runs the commands of the documents, and compares what they write. A command is an indented line behind `$ `, goes on in
# the lines behind `> `, and writes what stands below it, on standard output and standard error together. The commands of
# a page run one after the other in a folder of their own, in which `cola` and `./cola` are the launcher and `examples` is
# the folder of that name. A page that says `<!-- needs NAME.. -->` is skipped, and that is said, where such a command is
# not there. The last line is 'N passed, M failed', and the status is 0 only where none failed.
#
#     tests/examples.sh [PAGE..]    (all pages)
set -u
root=$(cd "$(dirname "$0")/.." && pwd -P) || exit 1
room=$(mktemp -d) || exit 1
trap 'rm -rf "$room"' EXIT
passed=0 failed=0

# commands PAGE: for each command of a page a file N.command, and N.wanted with what it writes.
commands() {
    awk -v room="$room/blocks" '
        function begin() { if (count) { close(command); close(wanted) }; count++; command = room "/" count ".command"; wanted = room "/" count ".wanted"; printf "" >wanted }
        /^    \$ / { begin(); inside = 1; empty = ""; print substr($0, 7) >command; next }
        inside && /^    > / { print substr($0, 7) >command; next }
        inside && /^    / { printf "%s%s\n", empty, substr($0, 5) >wanted; empty = ""; next }
        # (an empty line is written, where what is written goes on behind it)
        inside && /^$/ { empty = empty "\n"; next }
        { inside = 0; empty = "" }
    ' "$1"
}

# missing PAGE: the commands that a page needs and that are not there.
missing() {
    local it
    for it in $(sed -n 's/^<!-- needs \(.*\) -->$/\1/p' "$1"); do
        command -v "$it" >/dev/null || printf ' %s' "$it"
    done
}

# run PAGE: all commands of a page, in one shell.
run() (
    mkdir "$room/page" && cd "$room/page" || exit 1
    ln -s "$root/cola" cola
    ln -s "$root/examples" examples
    export PATH="$room/page:$PATH" LC_ALL=C
    count=1
    while [ -e "$room/blocks/$count.command" ]; do
        eval "$(cat "$room/blocks/$count.command")" >"$room/blocks/$count.written" 2>&1 </dev/null
        count=$((count + 1))
    done
)

"$root/cola" mem 4 </dev/null >/dev/null || exit 1 # (says what it does where it still has to build)
cd "$root" || exit 1
[ $# -gt 0 ] || set -- $(git ls-files '*.md' 2>/dev/null || find . -name '*.md' | sed 's,^\./,,')
for page in "$@"; do
    grep -q '^    \$ ' "$page" || continue
    absent=$(missing "$page")
    if [ -n "$absent" ]; then
        echo "skipped: $page, which needs$absent"
        continue
    fi
    rm -rf "$room/page" "$room/blocks" && mkdir "$room/blocks"
    commands "$page"
    run
    for command in $(printf '%s\n' "$room"/blocks/*.command | sort -V); do
        if cmp -s "${command%.command}.wanted" "${command%.command}.written"; then
            passed=$((passed + 1))
        else
            failed=$((failed + 1))
            printf 'FAILED: %s: %s\n' "$page" "$(head -n 1 "$command")"
            diff "${command%.command}.wanted" "${command%.command}.written"
        fi
    done
done

echo "$passed passed, $failed failed"
[ "$failed" -eq 0 ]
