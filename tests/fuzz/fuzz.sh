#!/usr/bin/env bash
# Fuzzes what opens hostile journals and logs, with clang's libFuzzer, and adds to tests/fuzz/corpus what reaches more: the gate
# (tests/library.sh) runs each of these inputs.
#
#     tests/fuzz/fuzz.sh SECONDS [journal | log]    (over the library that the gate, or make library, has built)
set -eu
cd "$(dirname "$0")/../.." || exit 1
seconds=${1:?SECONDS [journal | log]} only=${2:-journal log}
core=${CORE:-$(tests/core.sh)}
room=$(mktemp -d)
trap 'rm -rf "$room"' EXIT
make -s -f bindings/c/library.mk library CORE="$core" LIBRARY="$room/library"
wraps=-Wl,--wrap=pwrite,--wrap=fsync,--wrap=fdatasync,--wrap=ftruncate,--wrap=posix_fallocate,--wrap=madvise
# compile OUT FLAG..
compile() {
    local out=$1
    shift
    clang -std=gnu11 -O1 -g -fsanitize=fuzzer,address,undefined -fno-sanitize-recover=all "$@" $wraps -Iinclude -Ibindings/c -Itests/library \
        "tests/fuzz/$it.c" bindings/c/*.c "$room/library/libcola.a" -o "$room/$out"
}
for it in $only; do
    corpus=tests/fuzz/corpus/$it
    mkdir -p "$corpus" "$room/found"
    compile fuzz && compile merge -DFEW
    "$room/fuzz" -max_total_time="$seconds" -max_len=20000 -print_final_stats=1 -artifact_prefix="tests/fuzz/$it-" "$room/found" "$corpus"
    "$room/merge" -merge=1 -max_len=20000 "$corpus" "$room/found"
    rm -rf "$room/found"
    echo "$it: $(find "$corpus" -type f | wc -l) inputs, $(du -cb "$corpus"/* | tail -n 1 | cut -f 1) bytes"
done
