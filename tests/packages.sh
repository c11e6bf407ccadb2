#!/usr/bin/env bash
# The packages of what was built: the tar, the packages of Debian and the wheel are made twice and compared; each is put into an
# empty root, with no toolchain in it, where a first session is served and first programs in C and in Python run, and is taken
# off again. The versions are those of VERSION, and a first run can be installed with nothing built for it.
#
# What is wanted for that and not here is installed of Debian's packages (apt-get, as root). The root is made by mmdebstrap
# of the machine's own Debian. Where no packages can be had (no root, no apt-get, or no archive in reach), or no chroot can be made,
# that is said, the root is an empty folder that dpkg --root installs into, and what is missing is skipped by name.
#
#     tests/packages.sh [FOLDER]    (FOLDER has the libcola.a and libcola.so.1 to be packed; else they are made as in tests/library.sh)
#
# The last line is 'N passed, M failed', and the status is 0 only where none failed.
set -u
root=$(cd "$(dirname "$0")/.." && pwd -P) || exit 1
room=$(mktemp -d) || exit 1
making=
trap 'cd /; [ -z "$making" ] || kill "$making" 2>/dev/null; wait; rm -rf --one-file-system "$room"' EXIT
chmod 755 "$room"
export DEBIAN_FRONTEND=noninteractive LC_ALL=C.UTF-8
passed=0 failed=0

# check WHAT COMMAND..: counts whether the command ends with 0.
check() {
    local what=$1
    shift
    if "$@"; then
        passed=$((passed + 1))
    else
        failed=$((failed + 1))
        printf 'FAILED: %s\n' "$what"
    fi
}
# quietly COMMAND..: shows what the command writes only where it fails.
quietly() { "$@" >"$room/said" 2>&1 || { tail -n 30 "$room/said"; false; }; }
# has TOOL WHAT: whether there is such a command; says that WHAT is skipped where there is none.
has() { command -v "$1" >/dev/null || { printf 'skipped: %s (there is no %s)\n' "$2" "$1"; false; }; }
# first PAGE WORD: the first block of a page that has the word.
first() {
    awk -v word="$2" '/^    / || (/^$/ && block != "") { block = block substr($0, 5) "\n"; next }
        { if (index(block, word)) exit; block = "" } END { printf "%s", block }' "$1"
}

cd "$root" || exit 1
version=$(cat VERSION)

# One version.
check 'VERSION is one' grep -Eqx '[0-9]+\.[0-9]+(\.[0-9]+)?' VERSION
check 'the launcher has it' [ "$(./cola --version | sed 's/,.*//')" = "cola $version" ]
check 'the manual page has it' grep -q "^\.TH COLA 1 .*\"cola $version\"" docs/cola.1
check 'the changes begin with it' [ "$(sed -n 's/^## \(.*\), [0-9-]*$/\1/p' CHANGELOG.md | head -n 1)" = "$version" ]
check 'the module for Python has it' grep -qx "__version__ = \"$version\"" bindings/python/cola/__init__.py
check 'and the page of its shell' grep -q "^\.TH COLA-SHELL 1 .*\"cola $version\"" docs/cola-shell.1
check 'and that of its recovery' grep -q "^\.TH COLA-RECOVER 1 .*\"cola $version\"" docs/cola-recover.1
three=$version
case $version in *.*.*) ;; *) three=$version.0 ;; esac
check 'the crate for Rust has it' [ "$(sed -n 's/^version = "\(.*\)"/\1/p' bindings/rust/Cargo.toml)" = "$three" ]
check 'and its lock' [ "$(sed -n '/^name = "cola"/,$s/^version = "\(.*\)"/\1/p' bindings/rust/Cargo.lock)" = "$three" ]
check 'the number of the library is its first' grep -qx "shared = libcola.so.${version%%.*}" bindings/c/library.mk
check 'no call has a later one' [ "$(printf '%s\n' "$version" $(sed -n 's/^COLA_\(.*\) {$/\1/p' bindings/c/cola.map) | sort -V | tail -n 1)" = "$version" ]
for it in bindings/rust/Cargo.toml bindings/python/{cola_cluster.py,cola/__init__.py,cola/__main__.py,cola/files.py,cola/shell.py,cola/words.py,cola-shell,setup.py,pyproject.toml} include/cola.h bindings/c/cola_file.h bindings/c/cola.pc.in; do
    check "$it says its licence" grep -q 'SPDX-License-Identifier: MIT' "$it"
done

# What is wanted, of Debian's packages.
wanted=()
want() { command -v "$1" >/dev/null || wanted+=("$2"); }
want mmdebstrap mmdebstrap
want lintian lintian
want dpkg-shlibdeps dpkg-dev
want pkg-config pkgconf
want cc gcc
want cc libc6-dev
want readelf binutils
want man man-db
want groff groff
python=/usr/bin/python3
[ -x $python ] && $python -m pip --version >/dev/null 2>&1 || wanted+=(python3-pip)
[ -x $python ] && $python -c 'import setuptools, wheel' >/dev/null 2>&1 || wanted+=(python3-setuptools python3-wheel)
has_archive=
if [ "$(id -u)" -ne 0 ] || ! command -v apt-get >/dev/null; then
    echo "packages: nothing can be installed here (there is no root, or no apt-get)${wanted:+: ${wanted[*]}}"
elif ! apt-get -qq -o APT::Update::Error-Mode=any -o Acquire::Retries=2 -o Acquire::http::Timeout=20 update >"$room/said" 2>&1; then
    echo "packages: no archive of packages can be reached${wanted:+, for ${wanted[*]}}:"
    tail -n 3 "$room/said"
else
    has_archive=yes
    if [ ${#wanted[@]} -gt 0 ]; then
        check "${wanted[*]} can be installed" quietly apt-get -qq -o DPkg::Lock::Timeout=300 install -y --no-install-recommends "${wanted[@]}"
    fi
fi

# The empty root, made meanwhile.
target=$room/root
if [ -n "$has_archive" ] && ! { chroot / true && unshare --mount true; } 2>/dev/null; then
    echo 'packages: no chroot can be made here'
elif [ -n "$has_archive" ]; then
    (
        . /etc/os-release
        exec mmdebstrap --quiet --mode=root --variant=custom --aptopt='Acquire::Languages "none"' \
            --include=dpkg,libc-bin,dash,coreutils,diffutils,grep,mawk,perl-base,sed,base-passwd,python3 "$VERSION_CODENAME" "$target"
    ) >"$room/rooted" 2>&1 &
    making=$!
fi

./cola mem 4 </dev/null >/dev/null || exit 1 # (says what it does where it still has to build)
library=${1:-}
if [ -z "$library" ]; then
    core=$(tests/core.sh) || { check 'the proved part of the library is built' false; }
    library=$room/library
    check 'the library is built' quietly make -s -f bindings/c/library.mk library CORE="${core:-}" LIBRARY="$library"
    # (in another folder once more, to be compared)
    check 'and built once more' quietly make -s -f bindings/c/library.mk library CORE="${core:-}" LIBRARY="$room/elsewhere/library"
    for it in libcola.a libcola.so.1; do check "$it is the same" cmp "$library/$it" "$room/elsewhere/library/$it"; done
fi
library=$(cd "$library" && pwd -P) || exit 1

# A fresh clone behind a first run: what this leaves is the program. There is neither toolchain nor compiler to build with.
tools=$room/tools
mkdir -p "$tools" "$room/clone/crates/cola/out"
for it in awk cat chmod cut date dirname env find grep head install ln make mkdir mv printf readlink rm rmdir sed sh sort tail test tr uname xargs; do
    found=$(command -v "$it") && ln -s "$(readlink -f "$found")" "$tools/$it"
done
in_clone() { (cd "$room/clone" && PATH=$tools "$@" >"$room/out" 2>"$room/err") || { cat "$room/out" "$room/err"; false; }; }
install_lists() { cd "$room/$1" && find . -type f | LC_ALL=C sort; }
tar -cf - $(ls | grep -vx 'crates\|out\|bench') crates/*/src crates/*/specs | tar -C "$room/clone" -xf -
check 'a fresh clone says in one line what is not built' \
    eval '! in_clone make -s install PREFIX="$room/first" >/dev/null && [ "$(grep -c "^cola: " "$room/err")" -eq 1 ]'
cp crates/cola/out/cola "$room/clone/crates/cola/out/cola"
check 'a first run is installed with nothing built' in_clone make -s install PREFIX="$room/first"
check 'and it is said that the library is not' grep -q '^cola: .*make library' "$room/err"
check 'what is installed answers' [ "$(printf 'put a 1\nget a\n' | PATH=$tools "$room/first/bin/cola" mem 4)" = $'new\nval 1' ]
check 'a built library is installed with nothing built' in_clone make -s install PREFIX="$room/second" LIBRARY="$library"
check 'it has the program, the library, the shell and their pages' \
    [ "$(install_lists second | grep -cE '^./(bin/cola(-shell|-recover)?|libexec/cola/cola|lib/libcola.(a|so.1)|share/man/man[13]/cola(-shell|-recover)?.[13])$')" -eq 10 ]
check 'it is taken off' in_clone make -s uninstall PREFIX="$room/second"
check 'and leaves no file' [ -z "$(find "$room/second" ! -type d)" ]
awk -v version="$version" -f docs/header.awk include/cola.h bindings/c/cola_file.h >"$room/cola.3"
if has man 'how the manual page for C is shown'; then
    check 'man shows the page for C without a warning' [ -z "$(MANWIDTH=100 man --warnings -l "$room/cola.3" 2>&1 >"$room/shown")" ]
    check 'with each call of the headers' [ "$(sed -n 's/^[a-z].*[ *]\(cola_[a-z_]*\)(.*/\1/p' include/cola.h bindings/c/cola_file.h |
        while read -r it; do grep -q "$it(" "$room/shown" || echo "$it"; done)" = '' ]
    check 'and each answer' [ "$(sed -n 's/^ *\(COLA_[A-Z_]* = [0-9]*\).*/\1/p' include/cola.h |
        while read -r it; do grep -q "$it\$" "$room/shown" || echo "$it"; done)" = '' ]
fi

# The packages, made twice, side by side. Nothing but what was built is taken.
without_rt=$(tr ':' '\n' <<<"$PATH" | while read -r it; do [ -x "$it/rt" ] || printf '%s:' "$it"; done)
without_rt=${without_rt%:}
kinds=dist has_deb= has_wheel=
has dpkg-shlibdeps 'the packages of Debian' && has_deb=yes && kinds+=' deb'
if $python -m pip --version >/dev/null 2>&1 && $python -c 'import setuptools, wheel' 2>/dev/null; then
    has_wheel=yes kinds+=' wheel'
else
    echo "skipped: the wheel ($python has not all of pip, setuptools and wheel)"
fi
make_packages() {
    local it
    for it in $kinds; do
        PATH=$without_rt make -s "$it" LIBRARY="$library" PYTHON=$python PACKAGES="$room/$1" >"$room/$1.said" 2>&1 || { cat "$room/$1.said"; return 1; }
    done
}
make_packages again &
again=$!
check 'the packages are made' make_packages made
check 'and made again' wait $again
for it in "$room"/made/*; do check "${it##*/} is the same byte for byte" cmp "$it" "$room/again/${it##*/}"; done
if [ -n "$has_deb" ]; then
    check 'there are four packages' [ "$(cd "$room/made" && echo *.deb | sed 's/_[^ ]*//g')" = 'cola libcola-dev libcola1 python3-cola' ]
    for it in "$room"/made/*.deb; do check "${it##*/} has the version" [ "$(dpkg-deb -f "$it" Version)" = "$version" ]; done
    if has lintian 'what lintian says'; then
        check 'lintian finds no error' quietly lintian --allow-root --fail-on error "$room"/made/*.deb
    fi
fi

# The root is there: a chroot, or a folder for dpkg --root.
is_chroot=
if [ -n "$making" ]; then
    if wait "$making"; then
        is_chroot=yes
    else
        cat "$room/rooted"
        check 'an empty root can be made' false
        rm -rf --one-file-system "$target"
    fi
    making=
fi
triplet=$(dpkg-architecture -qDEB_HOST_MULTIARCH 2>/dev/null || cc -print-multiarch)
mkdir -p "$target/work" "$target/packages"
if [ -n "$is_chroot" ]; then
    # within COMMAND..: in the root, where nothing of this machine is.
    within() { chroot "$target" /usr/bin/env -i PATH=/usr/sbin:/usr/bin:/sbin:/bin LC_ALL=C.UTF-8 PYTHONPATH="${modules:-}" COLA_LIBRARY="${loaded:-}" \
        sh -c 'cd /work && exec "$@"' sh "$@"; }
    at=
    in_dpkg() { quietly within dpkg "$@"; }
else
    echo 'packages: dpkg --root installs into an empty folder in place of a chroot'
    mkdir -p "$target/var/lib/dpkg/info" "$target/var/lib/dpkg/updates" "$target/var/lib/dpkg/triggers"
    : >"$target/var/lib/dpkg/status"
    within() { (cd "$target/work" && env PATH="$target/usr/bin:$without_rt" LD_LIBRARY_PATH="$target/usr/lib/$triplet" COLA_LIBRARY="${loaded:-}" \
        PYTHONPATH="${modules:-$target/usr/lib/python3/dist-packages}" "$@"); }
    at=$target
    in_dpkg() { quietly $as_root dpkg --root="$target" --log=/dev/null --force-not-root --force-depends --force-script-chrootless "$@"; }
    as_root=
    [ "$(id -u)" -eq 0 ] || as_root=fakeroot
fi
# Everything in the root but what dpkg, ldconfig and the tests themselves keep.
listed() {
    (cd "$target" && find . \( -path ./work -o -path ./packages -o -path ./var/lib/dpkg -o -path ./var/log -o -path ./var/cache -o -path ./etc/ld.so.cache \) -prune \
        -o -print | LC_ALL=C sort)
}
# The first example of the commands: what it calls, and what it should write.
sed -n '/^    /!{/^$/!{/./{s/.*/./}}}; p' docs/COMMANDS.md | awk '/^    / { print substr($0, 5); begun = 1; next } begun && /^\.$/ { exit }' >"$room/example"
sed -n 's/^\$ //p' "$room/example" >"$target/work/example.sh"
grep -v '^\$ ' "$room/example" >"$room/wanted"
# serves COLA: whether a first session is served by this command.
serves() {
    rm -f "$target/work/notes"
    within sh -euc 'PATH=$(dirname "$0"):$PATH . ./example.sh' "$1" >"$room/out" && cmp "$room/out" "$room/wanted" &&
        [ "$(within "$1" --version)" = "cola $version, for stores of version 1 and 2" ]
}
first docs/C.md '#include' >"$room/notes.c"
first docs/PYTHON.md 'import cola' >"$target/work/notes.py"
# answers COLA-SHELL: whether the shell serves lines of a pipe.
answers() {
    rm -f "$target/work/notes"
    printf '%s\n' 'put user:1001 Ada' 'get user:1001' | within "$@" notes --create 1000 >"$room/out" && printf 'Ada\n' | cmp "$room/out" -
}
writes_ada() { rm -f "$target/work/notes" && within "$@" >"$room/out" && printf 'Ada\n' | cmp "$room/out" -; }
# compiles OUT WORDS..: the first program in C, by pkg-config with these words.
compiles() {
    local out=$1
    shift
    quietly cc -Wall -Wextra -Werror "$room/notes.c" $(pkg-config "$@" --cflags --libs cola) -o "$target/work/$out"
}
loads_library() { readelf -d "$target/work/$1" | grep -q 'NEEDED.*\[libcola\.so\.1\]'; }
has_c=
has cc 'the first program in C' && has pkg-config 'the first program in C' && has readelf 'the first program in C' && has_c=yes
listed >"$room/before"

# The packages of Debian.
if [ -n "$has_deb" ] && has dpkg 'the packages in a root'; then
    cp "$room"/made/*.deb "$target/packages"
    check 'the packages are installed' in_dpkg -i $(cd "$target/packages" && printf "$at/packages/%s " *.deb)
    check 'a first session is served' serves "$at/usr/bin/cola"
    for it in man1/cola.1 man1/cola-shell.1 man1/cola-recover.1 man3/cola.3; do check "there is the page $it" gzip -t "$target/usr/share/man/$it.gz"; done
    check 'there is the completion' cmp docs/cola.bash "$target/usr/share/bash-completion/completions/cola"
    if [ -n "$has_c" ]; then
        export PKG_CONFIG_LIBDIR=$target/usr/lib/$triplet/pkgconfig PKG_CONFIG_SYSROOT_DIR=$target
        check 'pkg-config has the version' [ "$(pkg-config --modversion cola)" = "$version" ]
        check 'a program in C compiles' compiles notes.shared
        check 'and with --static' compiles notes.static --static
        unset PKG_CONFIG_LIBDIR PKG_CONFIG_SYSROOT_DIR
        check 'the one loads the library' loads_library notes.shared
        check 'the other does not' eval '! loads_library notes.static'
        check 'both run' eval 'writes_ada ./notes.shared && writes_ada ./notes.static'
    fi
    check 'a program in Python runs' writes_ada python3 notes.py
    check 'the shell serves' answers cola-shell
    check 'the packages are taken off' in_dpkg --purge python3-cola libcola-dev libcola1 cola
    listed >"$room/after"
    check 'and leave nothing' diff "$room/before" "$room/after"
    [ -z "$has_c" ] || check 'the program of --static needs none of them' writes_ada ./notes.static
fi

# The tar, in a folder of any name.
name=$(basename "$room"/made/*.tar.gz .tar.gz)
check 'the list beside the tar is right' eval '(cd "$room/made" && sha256sum -c --quiet *.sha256)'
mkdir -p "$target/opt"
check 'the tar is unpacked' tar -C "$target/opt" -xzf "$room/made/$name.tar.gz"
mv "$target/opt/$name" "$target/opt/any name"
unpacked="$at/opt/any name"
check 'its list of sums is right' eval '(cd "$target/opt/any name" && sha256sum -c --quiet share/doc/cola/SHA256SUMS)'
check 'and has each file' eval '(cd "$target/opt/any name" && [ "$(find . ! -type d | wc -l)" -eq $(($(wc -l <share/doc/cola/SHA256SUMS) + 1)) ])'
check 'it has the licence' cmp LICENSE "$target/opt/any name/share/doc/cola/LICENSE"
check 'a first session is served' serves "$unpacked/bin/cola"
mv "$target/opt/any name" "$target/opt/cola"
unpacked=$at/opt/cola
if [ -n "$has_c" ]; then
    export PKG_CONFIG_LIBDIR=$target/opt/cola/lib/pkgconfig
    check 'pkg-config has the version' [ "$(pkg-config --modversion cola)" = "$version" ]
    check 'a program in C compiles' compiles notes.shared
    check 'and with --static' compiles notes.static --static
    unset PKG_CONFIG_LIBDIR
    check 'both run' eval 'writes_ada env LD_LIBRARY_PATH="$unpacked/lib" ./notes.shared && writes_ada ./notes.static'
fi
modules=$unpacked/share/cola loaded=$unpacked/lib/libcola.so.1
check 'a program in Python runs' writes_ada python3 -B notes.py
unset modules loaded
check 'the shell of the tar finds its module and its library' answers python3 -B "$unpacked/bin/cola-shell"
rm -r "$target/opt/cola"
rmdir --ignore-fail-on-non-empty "$target/opt"
listed >"$room/after"
check 'it leaves nothing' diff "$room/before" "$room/after"

# The wheel, without the library beside it.
if [ -n "$has_wheel" ]; then
    export PIP_BREAK_SYSTEM_PACKAGES=1 PIP_DISABLE_PIP_VERSION_CHECK=1 PIP_ROOT_USER_ACTION=ignore PYTHONUSERBASE=$target/opt/user
    check 'the wheel is installed' quietly $python -m pip install --user --no-index --no-deps --no-warn-script-location "$room"/made/*.whl
    modules=$(find "$target/opt/user" -type d -name site-packages)
    modules=$at${modules#"$target"}
    check 'a program in Python runs' writes_ada python3 -B notes.py
    check 'its shell serves' answers python3 -B -m cola
    check 'with a command of its own' [ -x "$target/opt/user/bin/cola-shell" ]
    check 'it has the version' test -d "$target${modules#"$at"}/cola-$version.dist-info"
    unset modules
    check 'it is taken off' quietly $python -m pip uninstall -y cola
    check 'and leaves no file' [ -z "$(find "$target/opt/user" ! -type d)" ]
fi

echo "$passed passed, $failed failed"
[ "$failed" -eq 0 ]
