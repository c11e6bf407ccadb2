#!/usr/bin/env bash
# Sessions as text: each file tests/rows/SUBJECT/NAME.row is given to the program cola_rows, and what it prints is compared
# with NAME.out beside it. Then made lines are compared with the plain session, and what check says of changed files with
# the plain program.
#
#     tests/rows.sh              all subjects, then made lines and changed files, in about two minutes
#     tests/rows.sh SUBJECT..    the rows of these folders alone
#     tests/rows.sh --long N     N made lines of each kind, from another seed than any before
#     tests/rows.sh --statuses   no rows: the statuses of the program cola, a line for each with its number and its meaning
#
# The program is built where it is not current, by rt run in its crate. Rows of failing allocations need a C compiler, and
# are skipped where there is none. The last line is 'N passed, M failed', and the status is 0 only where none failed.
. "$(dirname "$0")/lib.sh"
program=$root/crates/cola_rows/out/cola_rows

# Made lines of each kind, for about 100 seconds together.
lines=250000
# Changed files.
files=1000
seed=1

# The folders of the texts that the program is built from, below the root.
folders() {
    awk '
        function take(name,    count, at, words) {
            if (!(name in below) || name in taken) return
            taken[name]
            for (at = split("src specs proofs", words, " "); at >= 1; at--) print "crates/" name "/" words[at]
            count = split(below[name], words, " ")
            for (at = 1; at <= count; at++) take(words[at])
        }
        { sub(/#.*/, ""); at = index($0, ":") }
        at { split(substr($0, 1, at - 1), words, " "); below[words[1]] = substr($0, at + 1) }
        END { take("cola_rows") }
    ' "$root/crates.txt" | while read -r folder; do
        [ -d "$root/$folder" ] && printf '%s\n' "$folder"
    done
}

# Whether no text is newer than the program.
is_current() {
    [ -x "$program" ] && [ -z "$(cd "$root" && find crates.txt $(folders) -newer "$program" -print | head -n 1)" ]
}

build() {
    echo 'rows: proving and building cola_rows and the crates below it, with rt run in crates/cola_rows'
    (cd "$root/crates/cola_rows" && rt run) </dev/null >"$room/build" 2>&1 || {
        cat "$room/build"
        return 1
    }
    touch "$program"
}

# prints FILE: whether the program prints for the file of rows what stands beside it.
prints() {
    local wanted=${1%.row}.out
    "$program" <"$1" >"$room/out" 2>"$room/err"
    diff "$wanted" "$room/out" && [ ! -s "$room/err" ]
}

# prints_failing FILE: the same where allocations fail in turn.
prints_failing() {
    LD_PRELOAD=$room/allocations.so prints "$1"
}

# Builds the library that makes allocations fail, where that can be done.
can_fail_allocations() {
    [ -e "$room/allocations.so" ] ||
        cc -O2 -shared -fPIC -o "$room/allocations.so" "$root/tests/allocations.c" -ldl 2>/dev/null
}

# The files of rows of these folders.
run_rows() {
    local file
    for file in "$@"; do
        if ! grep -q '^each allocation' "$file"; then
            check "${file#"$root/tests/"}" prints "$file"
        elif can_fail_allocations; then
            check "${file#"$root/tests/"}" prints_failing "$file"
        else
            echo "skipped: ${file#"$root/tests/"}, since there is no C compiler to make allocations fail"
        fi
    done
}

# made SEED LINES: whether so many made lines of each kind have the plain session's replies.
made() {
    "$program" made "$1" "$2"
}

judged() {
    "$program" judged "$1" "$2"
}

is_current || build >&2 || exit 1
if [ "${1-}" = --statuses ]; then
    "$program" statuses
    exit
fi
shopt -s nullglob
case ${1-} in
--long)
    seed=$(date +%s)
    check "made $seed ${2:?so many lines}" made "$seed" "$2"
    ;;
'')
    run_rows "$root"/tests/rows/*/*.row
    check "made $seed $lines" made "$seed" "$lines"
    check "judged $seed $files" judged "$seed" "$files"
    ;;
*)
    for subject in "$@"; do
        run_rows "$root/tests/rows/$subject"/*.row
    done
    ;;
esac
finish
