#!/usr/bin/env bash
# The manual page and the completion of bash: that docs/cola.1 is made of docs/COMMANDS.md, has all that this has, and is
# shown without a warning; and what is completed. No program is run. The last line is 'N passed, M failed', and the status is
# 0 only where none failed.
. "$(dirname "$0")/lib.sh"

cd "$root" || exit 1
version=$("$root/cola" --version | sed 's/^cola \([^,]*\),.*/\1/')
awk -v version="$version" -f docs/manual.awk docs/COMMANDS.md >"$room/cola.1"
check 'docs/cola.1 is what docs/manual.awk makes of docs/COMMANDS.md (make documents)' cmp "$room/cola.1" docs/cola.1

if command -v groff >/dev/null; then
    groff -man -Tutf8 -ww -rLL=2000n docs/cola.1 2>"$room/warnings" | sed 's/\x1b\[[0-9;]*m//g; s/.\x08//g' >"$room/text"
    check 'groff shows it without a warning' test ! -s "$room/warnings"
    # has WHAT TEXT: whether the page, with each run of spaces as one, has the text.
    tr -s ' ' <"$room/text" >"$room/words"
    has() { grep -qF -- "$2" "$room/words" || { printf '%s: %s\n' "$1" "$2"; false; }; }
    has_all() {
        local it
        while IFS= read -r it; do has "$1" "$it" || return 1; done
    }
    section() { awk -v title="## $1" '/^## / { inside = $0 == title } inside' docs/COMMANDS.md; }
    cells() { sed -n 's/^| \(.*\) |$/\1/p' | sed '/^Words\|^Line\|^To\|^Status\|^Flaw/d' | sed 's/ | /\n/g' | tr -d '`' | sed 's/^ *//' | tr -s ' '; }
    for title in Modes Lines Replies Statuses 'The launcher'; do
        section "$title" | cells >"$room/cells"
        check "the section $title has rows" test -s "$room/cells"
        check "the page has all rows of the section $title" has_all "$title" <"$room/cells"
    done
    sed -n 's/^    \(\$ .*\)/\1/p' docs/COMMANDS.md | tr -s ' ' >"$room/examples"
    check 'the page has all examples' has_all example <"$room/examples"
    for title in NAME SYNOPSIS DESCRIPTION MODES LINES REPLIES STATES 'EXIT STATUS' EXAMPLES; do
        check "the page has the section $title" grep -qx "$title" "$room/text"
    done
else
    echo 'manual: groff is not here; how the page is shown is skipped'
fi
if command -v man >/dev/null; then
    MANWIDTH=100 LC_ALL=C.UTF-8 man --warnings -l docs/cola.1 >"$room/shown" 2>"$room/warnings"
    check 'man shows it without a warning' test ! -s "$room/warnings"
    check 'and shows its end' grep -q 'sound 4' "$room/shown"
else
    echo 'manual: man is not here; that it shows the page is skipped'
fi

# What is completed: the words of a line, of which the last one is the one that is being typed.
mkdir "$room/files" && cd "$room/files" || exit 1
touch notes novel other
. "$root/docs/cola.bash"
completed() {
    local wanted=$1 COMP_WORDS COMP_CWORD COMPREPLY
    shift
    COMP_WORDS=("$root/cola" "$@")
    COMP_CWORD=$#
    _cola "$root/cola" "${COMP_WORDS[COMP_CWORD]}" "${COMP_WORDS[COMP_CWORD - 1]}"
    [ "$(printf '%s\n' ${COMPREPLY[@]+"${COMPREPLY[@]}"} | sort | tr '\n' ' ')" = "$wanted " ] || { printf '%s\n' "${COMPREPLY[*]}"; false; }
}
check 'each mode is completed' completed "$("$root/cola" --help | sed -n 's/^    cola \([a-z]*\) .*/\1/p' | cat - <(printf '%s\n' help --help --version) | sort | tr '\n' ' ' | sed 's/ $//')" ''
check 'modes that begin so' completed 'check create' c
check 'the modes behind help' completed 'gen grow' help g
check 'the name of a file' completed 'notes novel' run no
check 'the second file' completed other grow notes o
check 'the options of a mode' completed '--cache --cost --mirror' run notes --
check 'but those that are there' completed '--cache --mirror' run notes --cost --
check 'of another mode its own' completed '--block --keys --version' create new --
check 'the file of an option' completed 'notes novel' run other --mirror no
check 'the sizes of a block' completed '3 4 5 6 7 8 9' create new --block ''
check 'the versions' completed '1 2' load new --keys 4 --version ''
check 'no number of keys' completed '' create new --keys ''
check 'nothing where there is no such mode' completed '' nothing ''
check 'it is for cola' test "$(complete -p cola)" = 'complete -o filenames -F _cola cola'

finish
