#!/bin/sh
# Makes the packages of make deb: packaging/deb.sh FOLDER WORDS.., where the words are for make install. It wants dpkg-dev.
set -eu
folder=$1
shift
version=$(cat VERSION)
maker='Clocked COLA authors <maintainers@users.noreply.rosemattock.example>'
architecture=$(dpkg --print-architecture)
libraries=usr/lib/$(dpkg-architecture -qDEB_HOST_MULTIARCH)
room=$(mktemp -d)
trap 'rm -rf "$room"' EXIT
umask 022
mkdir -p "$folder" "$room/debian"
printf 'Source: cola\n\nPackage: cola\nArchitecture: any\n' >"$room/debian/control"
${MAKE:-make} -s install "$@" PREFIX=/usr LIBDIR="/$libraries" DESTDIR="$room/all"

# take PACKAGE FROM TO: moves what was installed to its package.
take() {
    mkdir -p "$room/$1/$(dirname "$3")"
    mv "$room/all/$2" "$room/$1/$3"
}
take libcola1 "$libraries/libcola.so.1" "$libraries/libcola.so.1"
take libcola-dev "$libraries" "$libraries"
take libcola-dev usr/include usr/include
take libcola-dev usr/share/man/man3 usr/share/man/man3
take python3-cola usr/share/cola/cola usr/lib/python3/dist-packages/cola
take python3-cola usr/share/cola/cola_cluster.py usr/lib/python3/dist-packages/cola_cluster.py
take python3-cola usr/bin/cola-shell usr/bin/cola-shell
take python3-cola usr/share/man/man1/cola-shell.1 usr/share/man/man1/cola-shell.1
sed -i '1s|.*|#!/usr/bin/python3|' "$room/python3-cola/usr/bin/cola-shell"
take cola usr usr
strip --strip-unneeded "$room/cola/usr/libexec/cola/cola" "$room/cola/usr/bin/cola-recover" "$room/libcola1/$libraries/libcola.so.1"
strip -D --strip-debug "$room/libcola-dev/$libraries/libcola.a"

# The changes in the form of Debian: a version's list, with its day.
changes() {
    awk -v maker="$maker" '
        function wrap(text, first,    count, word, at, line) {
            count = split(text, word, " ")
            line = first
            for (at = 1; at <= count; at++) {
                if (length(line) + length(word[at]) > 76) { print line; line = "   " }
                line = line " " word[at]
            }
            print line
        }
        function end(    date) {
            if (day == "") return
            command = "date -u -R -d " day
            command | getline date
            close(command)
            print "\n -- " maker "  " date "\n"
        }
        /^## / { end(); sub(/,$/, "", $2); day = $3; print "cola (" $2 ") unstable; urgency=medium\n" }
        /^- / { gsub(/`/, ""); wrap(substr($0, 3), "  *") }
        END { end() }
    ' CHANGELOG.md
}

# needs FILE: the packages of the shared libraries that a program or a library loads.
needs() { (cd "$room" && dpkg-shlibdeps -O -e"$1" 2>/dev/null | sed -n 's/^shlibs:Depends=//p'); }

# finish PACKAGE ARCHITECTURE SECTION DEPENDS SHORT <LONG: adds what each package has, and makes it.
finish() {
    at=$room/$1
    notes=$at/usr/share/doc/$1
    mkdir -p "$at/DEBIAN" "$notes"
    cp packaging/copyright "$notes/copyright"
    changes | gzip -9n >"$notes/changelog.gz"
    [ ! -d "$at/usr/share/man" ] || find "$at/usr/share/man" -type f -exec gzip -9n {} +
    find "$at/usr" -type d -empty -delete
    find "$at/usr" -exec touch -h -d "@$SOURCE_DATE_EPOCH" {} +
    (cd "$at" && find usr -type f | LC_ALL=C sort | tr '\n' '\0' | xargs -0 md5sum >DEBIAN/md5sums)
    cat >"$at/DEBIAN/control" <<-.
	Package: $1
	Source: cola
	Version: $version
	Architecture: $2
	Multi-Arch: $(case $2/$3 in all/*) echo foreign ;; */utils) echo foreign ;; *) echo same ;; esac)
	Section: $3
	Priority: optional
	Maintainer: $maker
	Installed-Size: $(find "$at/usr" -printf '%y %s\n' | awk '{ size += $1 == "f" ? int(($2 + 1023) / 1024) : 1 } END { print size }')
	Depends: $4
	Description: $5
	$(sed 's/^/ /')
	.
    [ "$1" != cola ] || sed -i '/^Source:/d' "$at/DEBIAN/control"
    dpkg-deb --root-owner-group -Zxz -b "$at" "$folder" >/dev/null
    echo "$folder/$1_${version}_$2.deb"
}

finish cola "$architecture" utils "$(needs cola/usr/libexec/cola/cola)" 'ordered key-value store in one file, each call of which is bounded' <<.
cola makes files of ordered key-value stores, serves sessions on them line by
line, and tests, copies and loads them. No call waits for a merge. Every reply,
exit status and change of the file is proved against the definition of an
ordered map.
.

mkdir -p "$room/libcola1/DEBIAN"
(cd "$room" && dpkg-gensymbols -q -plibcola1 -v"$version" -Plibcola1 -elibcola1/"$libraries"/libcola.so.1 -Olibcola1/DEBIAN/symbols >/dev/null)
echo "libcola 1 libcola1 (>= $version)" >"$room/libcola1/DEBIAN/shlibs"
echo 'activate-noawait ldconfig' >"$room/libcola1/DEBIAN/triggers"
finish libcola1 "$architecture" libs "$(needs libcola1/"$libraries"/libcola.so.1)" 'ordered key-value store inside a program (shared library)' <<.
The calls of cola for C, over a file that is mapped into memory: an ordered
key-value store, each call of which is bounded.
.

finish libcola-dev "$architecture" libdevel "libcola1 (= $version)" 'ordered key-value store inside a program (development files)' <<.
The headers, the static library, the file of pkg-config and the manual page
of cola for C.
.

notes=$room/python3-cola/usr/lib/python3/dist-packages/cola-$version.dist-info
mkdir -p "$notes" "$room/python3-cola/DEBIAN"
printf 'Metadata-Version: 2.1\nName: cola\nVersion: %s\nLicense: MIT\n' "$version" >"$notes/METADATA"
cat >"$room/python3-cola/DEBIAN/postinst" <<'.'
#!/bin/sh
set -e
if [ "$1" = configure ] && [ -z "$DPKG_ROOT" ] && command -v py3compile >/dev/null; then py3compile -p python3-cola; fi
.
cat >"$room/python3-cola/DEBIAN/prerm" <<'.'
#!/bin/sh
set -e
if [ -z "$DPKG_ROOT" ] && command -v py3clean >/dev/null; then py3clean -p python3-cola; fi
.
chmod 755 "$room/python3-cola/DEBIAN/postinst" "$room/python3-cola/DEBIAN/prerm"
finish python3-cola all python "python3:any (>= 3.9), libcola1 (>= $version)" 'ordered key-value store in one file (Python 3)' <<.
A mapping of bytes to bytes in one file, by the calls of libcola1. Its keys
come in their order, and each call is bounded. cola-shell takes commands on a
store at a terminal, or in a pipe.
.
