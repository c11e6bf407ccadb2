#!/usr/bin/env bash
# The library as users of C, Rust and Python meet it: it is built, installed and linked, the header is compiled alone, each of
# its answers is met, random calls are compared with a sorted array, and copies of the file are opened by the program. Each call
# of the system fails, and processes are killed in front of each, behind each, and in mid-session. Texts of C that were made wrong
# fail. The shell is driven at a terminal. The examples and the first programs of the documents are run, under valgrind and with the compiler's sanitizers too.
# What needs a tool that is not there is skipped, and that is said.
#
#     tests/library.sh [FOLDER]    (FOLDER has the libcola.a and libcola.so to be tested; else they are made of what make library or the gate built here)
#
# The last line is 'N passed, M failed', and the status is 0 only where none failed.
. "$(dirname "$0")/lib.sh"

# is_there TOOL WHAT: whether there is such a command; says that WHAT is skipped where there is none.
is_there() {
    command -v "$1" >/dev/null || { printf 'skipped: %s (there is no %s)\n' "$2" "$1"; return 1; }
}

is_there cc 'the library' || finish
is_there make 'the library' || finish

cd "$root" || exit 1
library=${1:-$room/library}
if [ $# -eq 0 ]; then
    core=$(tests/core.sh) || { check 'the proved part of the library is built' false; finish; }
    make -s -f bindings/c/library.mk library CORE="$core" LIBRARY="$library" >"$room/made" 2>&1
    made=$?
    [ "$made" -eq 0 ] || cat "$room/made"
    check 'the library is built' [ "$made" -eq 0 ]
    [ "$made" -eq 0 ] || finish
fi
library=$(cd "$library" && pwd -P) || exit 1
"$root/cola" mem 4 </dev/null >/dev/null || exit 1 # (says what it does where it still has to build)
program=$root/crates/cola/out/cola
strict="-std=gnu11 -Wall -Wextra -Werror"
folders="-Iinclude -Ibindings/c -Itests/library"
fails="-Wl,--wrap=malloc,--wrap=realloc" # (two tests count allocations)
calls="close fchmod fdatasync flock fstat fstatat fsync ftruncate madvise mkostemp mmap msync munmap open openat posix_fallocate pread pwrite realpath
    rename stat unlink unlinkat"
wraps=$(printf -- '-Wl,--wrap=%s ' $calls) # (the test of failing calls counts these)

# compiles OUT FLAGS FILE..: whether the C compiler takes the files without a warning.
compiles() {
    local out=$1 flags=$2
    shift 2
    cc $strict $flags $folders "$@" "$library/libcola.a" -o "$room/$out"
}

# quietly COMMAND..: shows what the command writes only where it fails.
quietly() { "$@" >"$room/out" 2>&1 || { cat "$room/out"; false; }; }

# is_index COMMAND..: whether an example, with a new file and the text, writes the index of its words.
is_index() {
    rm -f "$room/index"
    "$@" "$room/index" <examples/sonnet.txt >"$room/words.out" && cmp "$room/words.out" examples/words.out
}

# The header alone, as each language takes it.
printf '#include "cola_file.h"\nint main(void) { cola_file it = COLA_FILE_INIT; return it.bytes != 0; }\n' >"$room/alone.c"
for standard in c99 c11 c17; do
    check "the headers are $standard" cc -std=$standard -pedantic -Wall -Wextra -Werror $folders -fsyntax-only "$room/alone.c"
done
if is_there c++ 'the header as C++'; then
    check 'the headers are C++' c++ -x c++ -std=c++11 -pedantic -Wall -Wextra -Werror $folders -fsyntax-only "$room/alone.c"
fi

# The answers of the header are those of the crates, Answer::Done and Answer::Absent as COLA_OK and COLA_NONE; the C files give four more.
has_answers() {
    sed -n 's/^ *COLA_\([A-Z_]*\) = \([0-9]*\)[^0-9]*.*/\2 \1/p' include/cola.h | grep -vE ' (NULL|SYSTEM|READ_ONLY_STORE|UNFINISHED|SOUND|FLAW_[A-Z]*)$' >"$room/header"
    sed -n 's/^ *\(Answer\|ToolFault\|Verdict\)::\([A-Za-z]*\)[^=]* => \([0-9]*\),$/\3 \2/p' crates/cola_handle/src/answer.rt crates/cola_c/src/tools.rt |
        sort -n | sed 's/Done/Ok/; s/Absent/None/; s/\([a-z]\)\([A-Z]\)/\1_\2/g' | tr 'a-z' 'A-Z' >"$room/answers"
    [ "$(wc -l <"$room/header")" -eq 19 ] && diff "$room/header" "$room/answers"
}
check 'the answers of the header are those of the crates' has_answers

has_calls() {
    cat include/cola.h bindings/c/cola_file.h | sed -n 's/^[a-z].*[ *]\(cola_[a-z_]*\)(.*/\1/p' | sort >"$room/header"
    nm -D --defined-only "$library/libcola.so" | awk '$2 != "A" { if (!sub(/@@COLA_[0-9.]*$/, "", $3)) $3 = $3 " has no version"; print $3 }' | sort >"$room/calls"
    [ "$(wc -l <"$room/header")" -eq 42 ] && diff "$room/header" "$room/calls"
}
check 'libcola.so has the calls of the headers, each with its version, and nothing else' has_calls

# has_wraps: whether the calls of the system that the library makes are those that the test lets fail. (Those that are left out
# here do not fail, or take memory alone.)
has_wraps() {
    local it
    for it in cola_disk cola_file cola_file_tools cola_journal cola_log cola_resident; do ar p "$library/libcola.a" "$it.o" >"$room/$it.o" && nm -u "$room/$it.o" || return; done |
        awk '{ print $2 }' | grep -vE '^(cola_|_)|^(getpid|sysconf|clock_gettime|malloc|free|snprintf|(mem|str)[a-z]*)$' | sort -u >"$room/calls"
    printf '%s\n' $calls | diff - "$room/calls"
}
check 'the test of failing calls knows each call of the system' has_wraps

# The calls.
check 'what is handed to the proved calls compiles' cc -O1 -g $strict $folders tests/library/handed.c bindings/c/cola.c -o "$room/handed"
check 'what is handed to the proved calls' quietly "$room/handed"
check 'the test of answers compiles' compiles errors "-O2 -g $fails" tests/library/errors.c
check 'the test of many rows compiles' compiles many '-O2 -g' tests/library/many.c
check 'the test of rows backwards compiles' compiles backward '-O2 -g' tests/library/backward.c
check 'the test of whole stores compiles' compiles tools "-O2 -g $fails" tests/library/tools.c
check 'the test of random calls compiles' compiles random '-O2 -g' tests/library/random.c
check 'the test of killed processes compiles' compiles killed '-O2 -g' tests/library/killed.c
check 'the test of failing calls compiles' compiles failing "-O2 -g $wraps" tests/library/failing.c
check 'the test of resident stores compiles' compiles resident '-O2 -g -Wl,--wrap=pwrite,--wrap=fsync' tests/library/resident.c
disk=-Wl,--wrap=pwrite,--wrap=fsync,--wrap=fdatasync,--wrap=ftruncate,--wrap=posix_fallocate
hostile=$disk,--wrap=madvise
check 'the test of logged stores compiles' compiles logged "-O2 -g $disk" tests/library/logged.c
disk=$disk,--wrap=open,--wrap=openat,--wrap=unlinkat,--wrap=madvise
check 'the test of what a disk may be left as compiles' compiles states "-O2 -g $disk" tests/library/states.c
check 'the example in C compiles' compiles words '-O2 -g' examples/words.c
check 'each answer is met' quietly "$room/errors" "$room"
check 'many rows at once, and the keys that begin so' quietly "$room/many"
check 'rows backwards, and what a store says of itself' quietly "$room/backward"
check 'stores are checked, grown and loaded' quietly "$room/tools" "$room"
# (a hundred thousand of these calls are on small stores)
check 'random calls, and a copy for the program after each hundred' quietly "$room/random" "$room" 125000 100 "$program"
memory=$room # (a folder in memory, where there is one)
[ ! -w /dev/shm ] || memory=$(mktemp -d /dev/shm/cola.XXXXXX) && trap 'rm -rf "$room" "$memory"' EXIT
check 'a call of the system that fails, or is the last, leaves a file that is whole or refused' quietly "$room/failing" "$memory"
check 'resident stores, on disks that are full or fail, with journals of all kinds' quietly "$room/resident" "$memory"
check 'logged stores, on disks that are full or fail, with logs of all kinds' quietly "$room/logged" "$memory"
# on_a_small_disk COMMAND..: runs the command with a disk of 4 MiB at $room/small, which goes with it.
on_a_small_disk() { unshare --mount --map-root-user sh -c 'mount -t tmpfs -o size=4m tmpfs "$0" && exec "$@"' "$room/small" "$@"; }
mkdir "$room/small"
if on_a_small_disk true 2>/dev/null; then
    check 'a logged store on a disk that is filled' quietly on_a_small_disk "$room/logged" "$room/small" full
else
    echo 'skipped: a disk that is filled (none can be mounted here)'
fi
check 'killed processes with mapped stores leave a file that is refused, and their last copy' quietly "$room/killed" "$memory" 300
for it in resident logged synced; do
    check "processes with $it stores that are killed leave what they were promised" quietly "$room/killed" "$memory" 300 $it
done
# Hostile journals and logs, each input by itself: tests/fuzz/fuzz.sh found them.
for it in journal log; do
    check "the test of a hostile $it compiles" compiles "hostile_$it" "-O2 -g $hostile" "tests/fuzz/$it.c" tests/fuzz/main.c
    for input in tests/fuzz/corpus/"$it"/*; do
        check "a hostile $it, ${input##*/}" quietly env HOSTILE="$memory" "$room/hostile_$it" "$input"
    done
done
check 'from 200,000 states of a disk a recovery makes a checkpoint, byte for byte, and the calls of a log' quietly "$room/states" "$memory" 200000

# wrong WHAT TEST FILE EDIT WORD..: whether the test, over the library with this text of C as sed makes it wrong, says what is not so.
wrong() {
    local what=$1
    shift
    check "wrong, and found by $1: $what" is_found "$@"
}
mkdir "$room/wrong"
is_found() {
    local test=$1 file=$2 edit=$3 with=$library/libcola.a flags=
    shift 3
    case $test in
    handed) with= ;;
    resident) flags=-Wl,--wrap=pwrite,--wrap=fsync ;;
    logged) flags=${disk%%,--wrap=open,*} ;;
    states) flags=$disk ;;
    esac
    sed "$edit" "bindings/c/$file" >"$room/wrong/$file"
    ! cmp -s "bindings/c/$file" "$room/wrong/$file" || { echo "the edit of $file changes nothing"; return 1; }
    cc -std=gnu11 -O1 -w $flags $folders "tests/library/$test.c" "$room/wrong/$file" $with -o "$room/wrong/$test" || return
    ! "$room/wrong/$test" "$@" >"$room/out" 2>&1 && grep -q "^$test: .*not so: " "$room/out"
}
wrong 'a put is made before its record is appended' handed cola.c '/^int32_t cola_put(/,/^}/ {
    s/int32_t refused/int32_t made = put(store, key, key_len, value, value_len, was), refused/; s/refused : put(.*/refused : made;/; }'
wrong 'a journal that follows another header is applied' resident cola_journal.c 's/ && follows(&read, bytes, page)//' "$memory"
wrong 'and beside an older copy' states cola_journal.c 's/ && follows(&read, bytes, page)//' "$memory" 20000
wrong 'a header is written before the sync of the pages' states cola_journal.c '/case COLA_STEP_WRITE_PAGES/ s/COLA_HEADER/0/' "$memory" 20000
wrong 'a sync of the file that failed is forgotten' resident cola_journal.c \
    '/case COLA_STEP_SYNC_FILE/ s/fsync(journal->file) == 0/(fsync(journal->file), true)/' "$memory"
wrong 'a sync of the log that failed is forgotten' logged cola_log.c 's/is_stuck = \(fdatasync(log->descriptor)\) != 0/is_stuck = (\1, false)/' "$memory"
wrong 'a record that was torn is not cut off' logged cola_log.c 's/if (has_room) cut(log);//' "$memory"
wrong 'a torn end of a log is not cut off' logged cola_log.c '/^static int32_t make_again/,/^}/ s/if (!cut(log)) return COLA_SYSTEM;//' "$memory"
wrong 'a log is not begun anew at a checkpoint' logged cola_resident.c 's/ && !cola_log_begin(&it->log, file->bytes)/ \&\& false/' "$memory"
wrong 'a log is matched by the header alone' logged cola_log.c 's/COLA_PAGE/COLA_HEADER/' "$memory"
wrong 'the log of an earlier library is begun anew' logged cola_log.c '/is_earlier(&first, page)) return/d' "$memory"
wrong 'and passed over by other openings' logged cola_log.c 's/(errno = COLA_EARLIER, COLA_UNFINISHED)/COLA_OK/' "$memory"
wrong 'a journal outlives its file' resident cola_file.c 's/!cola_log_drop_stale(path, descriptor)/false/' "$memory"

# What cola-recover says of files that processes left, with which status, and what the program finds in them then.
recover=$library/cola-recover
check 'what leaves such files compiles' compiles left '-O2 -g -Wl,--wrap=fsync' tests/library/left.c
left=$room/left.files
mkdir "$left"
check 'processes leave such files' quietly "$room/left" "$left"
# recovers STATUS TEXT NAME..: whether cola-recover ends so, and this is a line of it.
recovers() {
    local status text=$2 wanted=$1
    shift 2
    (cd "$left" && "$recover" "$@") >"$room/out" 2>&1
    status=$?
    [ "$status" -eq "$wanted" ] && grep -qxF -- "$text" "$room/out" || { cat "$room/out"; echo "status $status"; false; }
}
has_sound() { [ "$("$program" check "$left/$1")" = "sound $2" ] && [ ! -e "$left/$1-journal" ] && [ ! -e "$left/$1-log" ]; }
# meets MODE: whether the program ends with 7 at the file that was left in mid-checkpoint, and its launcher names cola-recover.
meets() {
    (cd "$left" && "$root/cola" "$1" journal </dev/null) >"$room/out" 2>"$room/err"
    [ $? -eq 7 ] && grep -q 'journal-journal stands beside it: cola-recover journal finishes' "$room/err" || { cat "$room/err"; false; }
}
cp "$left/journal" "$room/journal.kept" && cp "$left/journal-journal" "$room/journal-journal.kept"
check 'the program refuses a file in mid-checkpoint, and the launcher names cola-recover' meets run
check 'and so does a check of it' meets check
check 'neither changes it' eval 'cmp "$left/journal" "$room/journal.kept" && cmp "$left/journal-journal" "$room/journal-journal.kept"'
check 'cola-recover finishes a journal' recovers 0 'journal: its checkpoint was finished' journal
check 'and the program finds what it had' has_sound journal 20
check 'cola-recover makes the calls of a log again' recovers 0 'log: the calls of its log were made again' log
check 'and the program finds them' has_sound log 20
check 'cola-recover does both' recovers 0 'both: its checkpoint was finished, and the calls of its log were made again' both
check 'and the program finds both' has_sound both 30
check 'cola-recover drops a journal of another checkpoint' recovers 0 'other: nothing to finish' other
check 'and the program finds the file as it was' has_sound other 20
check 'cola-recover refuses the log of an earlier library' recovers 1 \
    'cola-recover: earlier: its log was written by an earlier library, which makes its calls again' earlier
check 'and leaves it' [ -s "$left/earlier-log" ]
check 'cola-recover has nothing to finish' recovers 0 'nothing: nothing to finish' nothing
check 'and the file is as it was' has_sound nothing 10
check 'cola-recover says that there is no such file' recovers 1 'cola-recover: none: No such file or directory' nothing none
if is_there flock 'cola-recover at a file in use'; then
    recovers_held() { (flock -x 9 && recovers 1 'cola-recover: nothing: it is open in another process' nothing) 9<"$left/nothing"; }
    check 'cola-recover says that a file is in use' recovers_held
fi
check 'cola-recover without names ends with 2' recovers 2 'usage: cola-recover NAME..'

# are_sound: whether the program finds each of the files sound that a recovery may make.
are_sound() {
    local it count=0
    for it in "$memory"/states.files/checkpoint-*; do
        "$program" check "$it" >"$room/out" && grep -q '^sound ' "$room/out" || return
        count=$((count + 1))
    done
    [ "$count" -gt 100 ]
}
check 'which the program finds sound' are_sound
check 'an index of words in C' is_index "$room/words"
"$program" check "$room/index" >"$room/out"
check 'its file is sound' grep -qx 'sound 85' "$room/out"

if is_there valgrind 'the calls under valgrind'; then
    valgrind="valgrind -q --error-exitcode=99 --leak-check=full --show-leak-kinds=all"
    check 'what is handed to the proved calls, under valgrind' quietly $valgrind "$room/handed"
    check 'each answer, under valgrind' quietly $valgrind "$room/errors" "$room"
    check 'many rows, under valgrind' quietly $valgrind "$room/many"
    check 'rows backwards, under valgrind' quietly $valgrind "$room/backward"
    check 'whole stores, under valgrind' quietly $valgrind "$room/tools" "$room"
    check 'random calls, under valgrind' quietly $valgrind "$room/random" "$room" 3000 500
    check 'an index of words in C, under valgrind' is_index $valgrind "$room/words"
fi
sanitizers="-O1 -g -fsanitize=address,undefined -fno-sanitize-recover=all"
echo 'int main(void) { return 0; }' >"$room/empty.c"
if cc $sanitizers "$room/empty.c" -o "$room/empty" 2>/dev/null && "$room/empty"; then
    check 'what is handed on compiles with sanitizers' cc $sanitizers $strict $folders tests/library/handed.c bindings/c/cola.c -o "$room/handed_sane"
    check 'what is handed on, with sanitizers' quietly "$room/handed_sane"
    check 'the tests compile with sanitizers' compiles errors_sane "$sanitizers $fails" tests/library/errors.c bindings/c/*.c
    check 'many rows compile with sanitizers' compiles many_sane "$sanitizers" tests/library/many.c bindings/c/*.c
    check 'rows backwards compile with sanitizers' compiles backward_sane "$sanitizers" tests/library/backward.c bindings/c/*.c
    check 'whole stores compile with sanitizers' compiles tools_sane "$sanitizers $fails" tests/library/tools.c bindings/c/*.c
    check 'random calls compile with sanitizers' compiles random_sane "$sanitizers" tests/library/random.c bindings/c/*.c
    check 'the example compiles with sanitizers' compiles words_sane "$sanitizers" examples/words.c bindings/c/*.c
    check 'resident stores compile with sanitizers' compiles resident_sane "$sanitizers -Wl,--wrap=pwrite,--wrap=fsync" tests/library/resident.c bindings/c/*.c
    check 'resident stores, with sanitizers' quietly "$room/resident_sane" "$memory"
    check 'each answer, with sanitizers' quietly "$room/errors_sane" "$room"
    check 'many rows, with sanitizers' quietly "$room/many_sane"
    check 'rows backwards, with sanitizers' quietly "$room/backward_sane"
    check 'whole stores, with sanitizers' quietly "$room/tools_sane" "$room"
    check 'logged stores compile with sanitizers' compiles logged_sane "$sanitizers ${disk%%,--wrap=open,*}" tests/library/logged.c bindings/c/*.c
    check 'logged stores, with sanitizers' quietly "$room/logged_sane" "$memory"
    for it in journal log; do
        check "a hostile $it compiles with sanitizers" compiles "hostile_sane_$it" "$sanitizers $hostile" "tests/fuzz/$it.c" tests/fuzz/main.c bindings/c/*.c
        check "each hostile $it, with sanitizers" quietly env HOSTILE="$memory" "$room/hostile_sane_$it" tests/fuzz/corpus/"$it"/*
    done
    check 'random calls, with sanitizers' quietly "$room/random_sane" "$room" 10000 500
    check 'an index of words in C, with sanitizers' is_index "$room/words_sane"
else
    echo 'skipped: the calls with sanitizers (the compiler has none)'
fi

# Installed, and taken off again.
prefix="$room/prefix"
with_make() { quietly make -s -f bindings/c/library.mk "$1-library" LIBRARY="$library" PREFIX="$prefix" DESTDIR=; }
check 'it is installed' with_make install
check 'nothing else is written' [ "$(cd "$prefix" && find . -type f | LC_ALL=C sort | tr '\n' ' ')" = \
    "./bin/cola-recover ./bin/cola-shell ./include/cola.h ./include/cola_file.h ./lib/libcola.a ./lib/libcola.so.1 ./lib/pkgconfig/cola.pc $(
        LC_ALL=C; cd bindings/python && printf './share/cola/%s ' cola/*.py cola_cluster.py)./share/man/man1/cola-recover.1 ./share/man/man1/cola-shell.1 ./share/man/man3/cola.3 " ]
check 'a program that is linked without a number finds it' [ "$(readlink "$prefix/lib/libcola.so")" = libcola.so.1 ]
# first PAGE WORD: the first block of a page that has the word.
first() {
    awk -v word="$2" '/^    / || (/^$/ && block != "") { block = block substr($0, 5) "\n"; next }
        { if (index(block, word)) exit; block = "" } END { printf "%s", block }' "$1"
}
writes_ada() { (cd "$room/first" && "$@" >out && printf 'Ada\n' | cmp out -); }
mkdir "$room/first"
first docs/C.md '#include' >"$room/first/notes.c"
if is_there pkg-config 'the first program of docs/C.md'; then
    export PKG_CONFIG_PATH=$prefix/lib/pkgconfig
    check 'the first program in C compiles' cc -Wall -Wextra -Werror "$room/first/notes.c" $(pkg-config --cflags --libs cola) -o "$room/first/notes.program"
    check 'the first program in C writes what it should' writes_ada env LD_LIBRARY_PATH="$prefix/lib" ./notes.program
fi
if is_there cargo 'the crate for Rust'; then
    export COLA_LIB_DIR=$library CARGO_TARGET_DIR=$room/target CARGO_HOME=$room/cargo TMPDIR=$room
    manifest="--offline --locked --manifest-path bindings/rust/Cargo.toml"
    mkdir -p "$room/crate/src"
    first docs/RUST.md 'use cola' >"$room/crate/src/main.rs"
    printf '[package]\nname = "notes"\nversion = "0.1.0"\nedition = "2021"\n[dependencies]\ncola = { path = "%s" }\n' "$root/bindings/rust" >"$room/crate/Cargo.toml"
    check 'the tests of the crate for Rust' quietly cargo test $manifest
    check 'its example compiles' quietly cargo build --example words $manifest
    check 'an index of words in Rust' is_index "$room/target/debug/examples/words"
    check 'the first program in Rust compiles' quietly cargo build --offline --manifest-path "$room/crate/Cargo.toml"
    rm -f "$room/first/notes"
    check 'the first program in Rust writes what it should' writes_ada "$room/target/debug/notes"
fi
if is_there python3 'the module for Python'; then
    export COLA_LIBRARY=$library/libcola.so PYTHONPATH=$root/bindings/python PYTHONDONTWRITEBYTECODE=1 TMPDIR=$room
    in_python() { (cd bindings/python && "$@" >"$room/out" 2>&1) || { cat "$room/out"; false; }; }
    pytest=
    for it in 'python3 -m pytest' pytest-3; do
        if $it --version >/dev/null 2>&1; then pytest=$it && break; fi
    done
    if [ -n "$pytest" ]; then
        check 'the tests of the module for Python, by pytest' in_python $pytest -q -rP -p no:cacheprovider test_cola.py test_mapping.py test_shell.py
    else
        echo 'skipped: pytest (there is none); the same tests are run by unittest'
        check 'the tests of the module for Python' in_python python3 -m unittest test_cola test_mapping test_shell
    fi
    grep -o '1,000 at once.*' "$room/out" # (how long many rows at once take from Python)
    python3 -c 'import test.mapping_tests' 2>/dev/null || echo "skipped: Python's own tests of a mapping (this python3 has no test.mapping_tests)"
    python3 -c 'import readline' 2>/dev/null || echo 'skipped: the shell at a terminal (this python3 has no readline)'
    check 'the shell that was installed' [ "$(cd "$room/first" && printf 'put a 1\nget a\n' |
        env -u COLA_LIBRARY -u PYTHONPATH python3 "$prefix/bin/cola-shell" shell --create 1000)" = 1 ]
    check 'an index of words in Python' is_index python3 examples/words.py
    first docs/PYTHON.md 'import cola' >"$room/first/notes.py"
    rm -f "$room/first/notes"
    check 'the first program in Python writes what it should' writes_ada python3 notes.py
fi
check 'the program and the library at one file, at once' tests/crash/beside.sh "$program" "$library"
check 'it is taken off' with_make uninstall
check 'no file of it is left' [ -z "$(find "$prefix" -type f)" ]
for page in docs/C.md docs/RUST.md docs/PYTHON.md; do
    check "$page has at most 400 words" [ "$(wc -w <"$page")" -le 400 ]
done
finish
