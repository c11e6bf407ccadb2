#!/usr/bin/env bash
# The program and the library, started at once at one file: who says that a key was put has put it, and who is refused changed
# nothing. tests/library.sh runs it.
#
#     tests/crash/beside.sh PROGRAM FOLDER    (FOLDER has libcola.a)
set -u
root=$(cd "$(dirname "$0")/../.." && pwd -P) || exit 1
program=$(readlink -f -- "$1") library=$(readlink -f -- "$2")
room=$(mktemp -d) || exit 1
trap 'rm -rf "$room"' EXIT
cd "$room" || exit 1
pairs=${PAIRS:-300} served=0
cc -std=gnu11 -Wall -Wextra -Werror -I"$root/include" -I"$root/bindings/c" -o beside "$root/tests/crash/beside.c" "$library/libcola.a" || exit 1
"$program" create empty --keys 32 || exit 1
for ((pair = 1; pair <= pairs; pair++)); do
    cp empty file
    ./beside file library 1 &
    echo 'put program 2' | "$program" run file >out
    second=$?
    wait $!
    first=$?
    puts=0
    [ $first -ne 0 ] || puts=$((puts + 1))
    [ $second -ne 0 ] || puts=$((puts + 1))
    [ "$("$program" check file)" = "sound $puts" ] && [ $puts -gt 0 ] || { echo "pair $pair: the library ended with $first, the program with $second"; exit 1; }
    case $first,$second in
    0,0) served=$((served + 1)) ;;
    0,5 | 0,7 | 3,0) ;;
    *) echo "pair $pair: the library ended with $first, the program with $second"; exit 1 ;;
    esac
done
echo "the program beside the library: $pairs pairs, of which both were served $served times"
