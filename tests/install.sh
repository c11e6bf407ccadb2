#!/usr/bin/env bash
# `make install-program` into a folder of its own, and the command that it installs, on a PATH with no toolchain: a first
# session, the manual, the completion, statuses with their causes, and the same from a link. What only root or only others can
# try is skipped, and that is said. The last line is 'N passed, M failed', and the status is 0 only where none failed.
. "$(dirname "$0")/lib.sh"
mounted=
trap 'cd /; [ -z "$mounted" ] || umount "$room/small"; rm -rf "$room"' EXIT
chmod 755 "$room"

# run COMMAND..: leaves the status in $status, and what it wrote in $room/out and $room/err.
run() {
    "$@" >"$room/out" 2>"$room/err"
    status=$?
}
ended() { [ "$status" -eq "$1" ] || { printf 'it ended with status %s\n' "$status"; false; }; }
wrote_text() { printf '%s' "$1" | cmp "$room/out" -; }
# What the launcher says behind the meaning of a status.
caused() { [ "$(tail -n +2 "$room/err")" = "cola: $1" ] || { cat "$room/err"; false; }; }

if ! command -v make >/dev/null; then
    echo 'install: make is not here; skipped'
    finish
fi
"$root/cola" mem 4 </dev/null >/dev/null || exit 1 # (says what it does where it still has to build)
prefix="$room/a prefix"
run make -s -C "$root" install-program PREFIX="$prefix"
check 'the program is installed' ended 0
run make -s -C "$root" install-program PREFIX=/usr DESTDIR="$room/stage"
check 'and below another folder' test -x "$room/stage/usr/bin/cola"
check 'with the manual' cmp "$root/docs/cola.1" "$room/stage/usr/share/man/man1/cola.1"
check 'with the completion' cmp "$root/docs/cola.bash" "$room/stage/usr/share/bash-completion/completions/cola"

# In a clone in which nothing was built, and in one with the program alone: what was built is installed, and a line says what
# is to be built for the rest.
mkdir "$room/clone"
tar -C "$root" --exclude=./crates --exclude=./.git --exclude=./out -cf - . | tar -C "$room/clone" -xf -
run make -s -C "$room/clone" install PREFIX="$room/none"
check 'where nothing was built make install fails' test "$status" -ne 0
check 'says so in one line' test "$(grep '^cola: ' "$room/err")" = 'cola: the program was not built: the first run of ./cola builds it, as make does'
check 'and installs nothing' test ! -e "$room/none"
mkdir -p "$room/clone/crates/cola/out"
cp "$root/crates/cola/out/cola" "$room/clone/crates/cola/out/cola"
run make -s -C "$room/clone" install PREFIX="$room/some"
check 'where the program alone was built it is installed' test "$("$room/some/bin/cola" --version)" = "$("$root/cola" --version)"
check 'and a line says how the library is built' test "$(grep -c '^cola: ' "$room/err")" -eq 1

# A PATH without a toolchain, on which cola is the installed one.
PATH=$prefix/bin:$(tr ':' '\n' <<<"$PATH" | while read -r it; do [ -x "$it/rt" ] || printf '%s:' "$it"; done)
PATH=${PATH%:}
check 'there is no toolchain on PATH' test -z "$(command -v rt)"
check 'cola is the installed one' test "$(command -v cola)" = "$prefix/bin/cola"
mkdir "$room/work" && cd "$room/work" || exit 1
chmod 777 "$room/work"
run cola --version
check 'it says its version' test "$(cat "$room/out")" = "$("$root/cola" --version)"
run cola help run
check 'it has the manual' test "$(cat "$room/out")" = "$("$root/cola" help run)"
check 'man finds the page' test -z "$(command -v man)" -o -n "$(MANPATH="$prefix/share/man" man -w cola 2>/dev/null)"
run cola create notes --keys 1000
check 'it makes a file' ended 0
run cola run notes <<<$'put user:1001 Ada\nget user:1001'
check 'it serves a session' wrote_text $'new\nval Ada\n'
check 'and says nothing' test ! -s "$room/err"
run cola
check 'with no words it ends with 2' ended 2
check 'and names the modes' grep -q '^cola: there is no word; the first one is a mode: create, ' "$room/err"
run cola run missing </dev/null
check 'a file that is not there ends with 5' ended 5
check 'and its cause is said' caused 'missing: there is no such file'
check 'nothing else was written beside the program' test "$(find "$prefix" -type f | wc -l)" -eq 5
ln -s "$prefix/bin/cola" link
run ./link check notes
check 'a link to it works' wrote_text $'sound 1\n'
mv "$prefix/libexec/cola/cola" "$room/program"
run cola check notes
check 'without its program it ends with 101' ended 101
check 'and says so in one line' test "$(wc -l <"$room/err")" -eq 1
mv "$room/program" "$prefix/libexec/cola/cola"

# Files that may not be used.
if [ "$(id -u)" -ne 0 ]; then
    as() { "$@"; }
elif command -v setpriv >/dev/null; then
    as() { setpriv --reuid=65534 --regid=65534 --clear-groups "$@"; }
fi
if command -v as >/dev/null && as true 2>/dev/null; then
    cp notes closed && chmod 400 closed
    [ "$(id -u)" -ne 0 ] || chown 65534 closed
    run as cola run closed </dev/null
    check 'a file that may not be written ends with 5' ended 5
    check 'and its cause is said' caused 'closed: may be read but not written; the program opens it for writing too, in every mode: give it a copy'
    run as cola check closed
    check 'nor tested' caused 'closed: may be read but not written; the program opens it for writing too, in every mode: give it a copy'
    chmod 0 closed
    run as cola check closed
    check 'nor is one that may not be read' caused 'closed: no permission to read it'
    mkdir apart && chmod 555 apart
    run as cola create apart/one --keys 1
    check 'a folder that may not be written ends with 5' ended 5
    check 'and its cause is said' caused 'apart/one: no permission to make a file in apart'
else
    echo 'install: nobody else can be here; permissions are skipped'
fi
# A file with holes, on a file system that has no room to fill them.
mkdir "$room/small"
if mount -t tmpfs -o size=16k none "$room/small" 2>/dev/null; then
    mounted=yes
    cp --sparse=always notes "$room/small/full"
    run cola run "$room/small/full" < <(for i in $(seq 1 900); do echo "put k$i $i"; done)
    check 'a full disk ends with 5' ended 5
    check 'and its cause is said' grep -Eq "^cola: $room/small/full: its disk is full: [0-9]+ KiB are left" "$room/err"
else
    echo 'install: no small file system can be mounted here; a full disk is skipped'
fi

run make -s -C "$root" uninstall-program PREFIX="$prefix"
check 'it is removed' ended 0
check 'and leaves no file' test -z "$(find "$prefix" -type f)"

finish
