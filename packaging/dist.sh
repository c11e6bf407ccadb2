#!/bin/sh
# Makes the tar of make dist: packaging/dist.sh FOLDER NAME WORDS.., where the words are for make install. The tar has one folder
# NAME, which works wherever it is put: the launcher looks for the program beside itself, and cola.pc for the library.
set -eu
folder=$1 name=$2
shift 2
room=$(mktemp -d)
trap 'rm -rf "$room"' EXIT
umask 022
${MAKE:-make} -s install "$@" PREFIX= LIBDIR=/lib DESTDIR="$room/$name"
sed -i 's|^prefix=.*|prefix=${pcfiledir}/../..|; s|^libdir=.*|libdir=${prefix}/lib|' "$room/$name/lib/pkgconfig/cola.pc"
notes=share/doc/cola
mkdir -p "$room/$name/$notes"
cp LICENSE CHANGELOG.md packaging/copyright "$room/$name/$notes"
(cd "$room/$name" && find . ! -type d | sed 's|^\./||' | LC_ALL=C sort | tr '\n' '\0' | xargs -0 sha256sum >"$room/sums")
mv "$room/sums" "$room/$name/$notes/SHA256SUMS"
mkdir -p "$folder"
tar -C "$room" --sort=name --format=ustar --owner=0 --group=0 --numeric-owner --mode=u=rwX,go=rX --mtime="@$SOURCE_DATE_EPOCH" -cf - "$name" |
    gzip -9n >"$folder/$name.tar.gz"
(cd "$folder" && sha256sum "$name.tar.gz" >"$name.tar.gz.sha256")
echo "$folder/$name.tar.gz"
