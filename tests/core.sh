#!/usr/bin/env bash
# Prints the path of a libcola_c.a, the proved part of the library for C, of the texts that stand here: the one that rt lib built
# (make library), else one in out/core. That is compiled once, by the toolchain's compiler over the proved libraries that the gate
# leaves here, so that cola_c alone is proved once more (rt lib takes none of these). Where these are not here, rt lib builds it.
set -u
cd "$(dirname "$0")/.." || exit 1
root=$PWD

# is_newer FILE: whether the file is there, and no text of a crate is newer.
is_newer() {
    [ -e "$1" ] && [ -z "$(find crates.txt crates -path '*/out' -prune -o -type f \( -name '*.rt' -o -name '*.antt' -o -name crates.txt \) -newer "$1" -print | head -n 1)" ]
}

# compile CORE: cola_c, over the libraries.
compile() {
    local kit words=() it
    kit=$(dirname "$(dirname "$(readlink -f "$(command -v rt)")")")
    for it in $(sed -n 's/^cola_c staticlib: *//p' crates.txt); do
        if [ -d "crates/$it" ]; then words+=(--extern "$it=$root/crates/$it/out/rlib/$it.rlib"); else words+=(--extern "$it=$kit/rlibs/$it.rlib"); fi
    done
    for it in "$root"/crates/*/out/rlib; do words+=(-L "dependency=$it"); done
    (cd crates/cola_c && "$kit/bin/rattle" build --crate-name cola_c src/lib.rt --extern "std=$kit/rlibs/std.rlib" -L "dependency=$kit/rlibs" "${words[@]}" \
        --antt-project "$kit/rattle/logic/antt-project.json" --logic-built "$kit/logic_built" --links cola_c= --crate-type staticlib --jobs 2 \
        --toolchain "$kit/toolchain" --backend llvm -o "$1")
}

built=crates/cola_c/out/libcola_c.a
compiled=out/core/libcola_c.a
mkdir -p out/core
exec 9>out/core/lock
! command -v flock >/dev/null || flock 9
if is_newer "$built"; then
    echo "$root/$built"
elif is_newer "$compiled"; then
    echo "$root/$compiled"
elif is_newer crates/cola_handle/out/rlib/cola_handle.rlib && compile "$root/$compiled" >out/core/log 2>&1; then
    echo "$root/$compiled"
elif (cd crates/cola_c && rt lib) 9>&- >out/core/log 2>&1; then
    echo "$root/$built"
else
    cat out/core/log >&2
    exit 1
fi
