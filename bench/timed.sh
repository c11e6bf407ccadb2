#!/bin/sh
# Proves and builds a program that is timed, over the crates of this checkout, and writes it to a file. The gate does not prove
# these programs, so their texts end in .txt here: this makes a checkout of its own, with those texts and a line of crates.txt
# more, beside the libraries that rt has built.
# usage: bench/timed.sh PROGRAM TO USES..     (PROGRAM is the name of a folder here; needs rt)
set -eu
top=$(cd "$(dirname "$0")/.." && pwd)
program=$1 to=$2
shift 2
mkdir -p "$top/out"
work=$(mktemp -d "$top/out/timed.XXXXXX")
trap 'rm -rf "$work"' EXIT
{ cat "$top/crates.txt"; echo "$program: $*"; } >"$work/crates.txt"
for crate in $(sed 's/#.*//; s/[: ].*//' "$top/crates.txt"); do
    mkdir -p "$work/crates/$crate/out"
    for part in src specs proofs; do
        [ ! -d "$top/crates/$crate/$part" ] || cp -R "$top/crates/$crate/$part" "$work/crates/$crate/"
    done
    [ ! -d "$top/crates/$crate/out/rlib" ] || cp -Rl "$top/crates/$crate/out/rlib" "$work/crates/$crate/out/"
done
(cd "$top/bench/$program" && find . -name '*.txt') | while read -r text; do
    mkdir -p "$work/crates/$program/$(dirname "$text")"
    cp "$top/bench/$program/$text" "$work/crates/$program/${text%.txt}"
done
(cd "$work/crates/$program" && rt run </dev/null) >"$work/said" 2>&1 || { cat "$work/said" >&2; exit 1; }
cp "$work/crates/$program/out/$program" "$to"
