#!/usr/bin/env bash
# Makes a Debian source package of the library for C into FOLDER. `dpkg-buildpackage` builds it without the kit and
# without a network, by Debian's rustc and crates (tools/from_source.sh): the packages libslh1 and libslh-dev.
#
#   FOLDER/slh-VERSION/                                          the sources, with debian/ of bindings/debian/source
#   FOLDER/slh_VERSION.orig.tar.xz, slh_VERSION-1.debian.tar.xz, slh_VERSION-1.dsc
#
# usage: tools/source_package.sh FOLDER
#
# FOLDER has to be empty, or not there. It needs dpkg-dev. Files are dated by SOURCE_DATE_EPOCH, as in tools/debian.sh,
# where DEBFULLNAME and DEBEMAIL name another maintainer, too.
set -euo pipefail
here=$(cd "$(dirname "${BASH_SOURCE[0]}")/.." && pwd)
if [ $# != 1 ] || [[ $1 = -* ]]; then
    echo "usage: tools/source_package.sh FOLDER" >&2
    exit 2
fi
mkdir -p "$1"
folder=$(cd "$1" && pwd)
[ -z "$(ls -A "$folder")" ] || { echo "tools/source_package.sh: $1 has files" >&2 && exit 2; }
work=$(mktemp -d)
trap 'rm -rf "$work"' EXIT
umask 022
source "$here/tools/debian_parts.sh"
version=$(cat "$here/VERSION")
tree=$folder/slh-$version
mkdir "$tree"
# dist/ has no sources, and work of the kit is none.
tar -C "$here" -c --exclude=out --exclude=target --exclude=__pycache__ bindings c crates crates.txt docs examples \
    tests tools CHANGELOG.md CMakeLists.txt LICENSE-APACHE LICENSE-MIT README.md SECURITY.md VERSION | tar -x -C "$tree"
tar -C "$folder" --sort=name --owner=0 --group=0 --numeric-owner --mtime="@$SOURCE_DATE_EPOCH" \
    --use-compress-program="xz -1" -cf "$folder/slh_$version.orig.tar.xz" "slh-$version"
mkdir -p "$tree/debian/source"
cp "$here"/bindings/debian/source/{rules,*.install} "$tree/debian/"
chmod 755 "$tree/debian/rules"
sed "s/@MAINTAINER@/$escaped/" "$here/bindings/debian/source/control" >"$tree/debian/control"
changelog "$version-1" "Built from source, by stock rustc." >"$tree/debian/changelog"
copyright >"$tree/debian/copyright"
echo "3.0 (quilt)" >"$tree/debian/source/format"
(cd "$folder" && dpkg-source -b "$tree" >&2)
