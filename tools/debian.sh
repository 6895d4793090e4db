#!/usr/bin/env bash
# Makes Debian packages of a release into FOLDER, for amd64. N is the first number of its version:
#
#   libslhN      libslh.so.N, with the code for all levels of processors, and the symbols file of its calls
#   libslh-dev   the headers, the archives, and the files for pkg-config and CMake
#   slh          the program, built for all levels, its man page, and completions for bash and zsh
#   slh-openssl  the provider for OpenSSL, where bindings/openssl/build.sh finds OpenSSL 3.5 and a C compiler, and
#                /etc/ssl/slh.cnf, a configuration that needs it
#
# usage: tools/debian.sh [DIST] FOLDER
#
# DIST is a folder as tools/release.sh writes it (default: dist). A file whose hash is not the one in its SHA256SUMS is
# not packaged. Shared objects are stripped, as Debian's have to be. It needs dpkg-dev and binutils. Files are dated by
# SOURCE_DATE_EPOCH, without it by the last commit, and without .git by CHANGELOG.md, to which `git archive` gives the
# date of its commit: so packages of one commit are the same bits. DEBFULLNAME and DEBEMAIL name another maintainer.
set -euo pipefail
here=$(cd "$(dirname "${BASH_SOURCE[0]}")/.." && pwd)
if [ $# = 0 ] || [ $# -gt 2 ] || [[ $1 = -* || ${2-} = -* ]]; then
    echo "usage: tools/debian.sh [DIST] FOLDER" >&2
    exit 2
fi
dist=$here/dist
if [ $# = 2 ]; then
    dist=$1
    shift
fi
[ -f "$dist/BUILD" ] && [ -f "$dist/SHA256SUMS" ] || {
    echo "tools/debian.sh: $dist is no release: it has no BUILD or no SHA256SUMS" >&2
    exit 2
}
umask 022
mkdir -p "$1"
folder=$(cd "$1" && pwd)
dist=$(cd "$dist" && pwd)
work=$(mktemp -d)
trap 'rm -rf "$work"' EXIT

source "$here/tools/debian_parts.sh"
upstream=$(sed -n 's/^version //p' "$dist/BUILD")
number=${upstream%%.*}
shared=libslh.so.$number
version=$upstream-1
has_share=$(grep -q '  share/' "$dist/SHA256SUMS" && echo yes || echo no)
lib=usr/lib/x86_64-linux-gnu

# Begins a package: PACKAGE.
begin() { root=$work/$1 && mkdir -p "$root/DEBIAN"; }

# Puts a file of the release into a package, where it has the hash that is listed: MODE FILE PATH.
put() {
    awk -v file="$2" '$2 == file' "$dist/SHA256SUMS" >"$work/listed"
    if [ ! -s "$work/listed" ] || ! (cd "$dist" && sha256sum --check --status "$work/listed"); then
        echo "tools/debian.sh: $2 is missing or damaged, or SHA256SUMS does not list it" >&2
        exit 1
    fi
    install -D -m "$1" "$dist/$2" "$root/$3"
}

# The same for a FILE of share/ (tools/share.sh), and what makes those that a release up to 0.13.0 does not have.
put_share() {
    if [[ $has_share = yes ]]; then put 644 "share/$1" "$2"; else install -D -m 644 "$work/share/$1" "$root/$2"; fi
}

make_share() { [[ $has_share = yes ]] || "$here/tools/share.sh" "$work" "$@"; }

# The same for a page, which Debian has zipped.
put_zipped() {
    put_share "$1" "$2"
    gzip -9n "$root/$2"
}

# Writes standard input into a file of a package: PATH.
write() {
    mkdir -p "$(dirname "$root/$1")"
    cat >"$root/$1"
}

# The file for pkg-config of an archive libNAME: NAME and a line that describes it.
pkgconfig() {
    write "$lib/pkgconfig/$1.pc" <<END
prefix=/usr
includedir=\${prefix}/include
libdir=\${prefix}/lib/x86_64-linux-gnu

Name: $1
Description: $2
Version: $upstream
Libs: -L\${libdir} -l$1
Cflags: -I\${includedir}
END
}

# What each package has in /usr/share/doc: PACKAGE.
documents() {
    changelog "$version" "Packaged from the files of the release." | gzip -9n |
        write "usr/share/doc/$1/changelog.Debian.gz"
    gzip -9n <"$here/CHANGELOG.md" | write "usr/share/doc/$1/changelog.gz"
    copyright | write "usr/share/doc/$1/copyright"
}

# The packages that these files of a package need: PATH...
needed() {
    mkdir -p "$work/needed/debian"
    printf 'Source: slh\n\nPackage: slh\nArchitecture: any\n' >"$work/needed/debian/control"
    (cd "$work/needed" && dpkg-shlibdeps -O "${@/#/-e$root/}") | sed -n 's/^shlibs:Depends=//p'
}

# Builds a package of what is in it by now: PACKAGE, and the paths of what needs other packages.
build() {
    local package=$1 needs= size
    shift
    documents "$package"
    [ $# = 0 ] || needs=$(needed "$@")
    size=$(du -k -s --apparent-size "$root/usr" | cut -f 1)
    (cd "$root" && find usr -type f -print0 | LC_ALL=C sort -z | xargs -0 md5sum) | write DEBIAN/md5sums
    sed "s/@VERSION@/$version/; s/@MAINTAINER@/$escaped/; s/@SIZE@/$size/; s/@SHLIBS@/$needs/; s/@NUMBER@/$number/g" \
        "$here/bindings/debian/${package/%"$number"/}.control" | write DEBIAN/control
    find "$root" -depth -exec touch -h -d "@$SOURCE_DATE_EPOCH" {} +
    dpkg-deb --root-owner-group -Zxz --build "$root" "$work/made" >&2
}

make_libslh() {
    begin "libslh$number"
    put 644 "x86-64/$shared" "$lib/$shared"
    (cd "$root" && strip --strip-unneeded "$lib/$shared")
    echo "libslh $number libslh$number (>= $upstream)" | write DEBIAN/shlibs
    symbols "$root/$lib/$shared" | write DEBIAN/symbols
    echo "activate-noawait ldconfig" | write DEBIAN/triggers
    build "libslh$number" "$lib/$shared"
}

# The symbols file of a shared object: each call with its symbol version, and the release from which on both are there.
symbols() {
    printf '%s\n' "$shared libslh$number #MINVER#" "* Build-Depends-Package: libslh-dev"
    nm -D --defined-only "$1" | sed -nE 's/.* [TW] (slh_[a-z_]*)(@@)?(.*)$/\1 \3/p' | while read -r call node; do
        echo " $call@${node:=Base} $(printf '%s\n' "$(since "$call")" "$(since "$node")" | sort -V | tail -n 1)"
    done
}

since() {
    awk -v name="$1" -v found="$upstream" '$1 == name { found = $2 } END { print found }' \
        "$here/bindings/debian/symbols.since"
}

make_libslh_dev() {
    local file level call
    begin libslh-dev
    for file in slh.h slh.hpp slh_internal.h slh_verify.h; do
        put 644 include/$file usr/include/$file
    done
    put 644 x86-64/libslh.a $lib/libslh.a
    for level in v2 v3 v4; do
        put 644 x86-64-$level/libslh.a $lib/libslh-$level.a
    done
    put 644 x86-64-v2/libslh_verify.a $lib/libslh_verify.a
    ln -s "$shared" "$root/$lib/libslh.so"
    make_share
    put_zipped man/man3/slh.3 usr/share/man/man3/slh.3
    for call in $(zcat "$root/usr/share/man/man3/slh.3.gz" | sed -n 's/^\.SH \(slh_\)/\1/p'); do
        ln -s slh.3.gz "$root/usr/share/man/man3/$call.3.gz"
    done
    pkgconfig slh "SLH-DSA (FIPS 205) with SHA-2, proved by machine"
    pkgconfig slh_verify "Verifying signatures of SLH-DSA (FIPS 205) with SHA-2, proved by machine"
    put_share cmake/slh-config.cmake $lib/cmake/slh/slh-config.cmake
    put_share cmake/slh-config-version.cmake.in $lib/cmake/slh/slh-config-version.cmake
    sed -i "s/@version@/$upstream/; s/@pointer@/8/" "$root/$lib/cmake/slh/slh-config-version.cmake"
    build libslh-dev
}

make_slh() {
    local level
    begin slh
    for level in x86-64 x86-64-v2 x86-64-v3 x86-64-v4; do
        put 755 $level/slh usr/lib/slh/$level/slh
    done
    mkdir -p "$root/usr/bin"
    ln -s ../lib/slh/x86-64/slh "$root/usr/bin/slh"
    make_share "$root/usr/lib/slh/x86-64-v2/slh" "$upstream"
    put_zipped man/man1/slh.1 usr/share/man/man1/slh.1
    put_share bash-completion/completions/slh usr/share/bash-completion/completions/slh
    put_share zsh/site-functions/_slh usr/share/zsh/vendor-completions/_slh
    gzip -9n <"$here/docs/FORMATS.md" | write usr/share/doc/slh/FORMATS.md.gz
    build slh usr/lib/slh/x86-64-v{2,3,4}/slh
}

# The provider is compiled here, over the files of libslhN and libslh-dev. Without OpenSSL 3.5 there is none.
make_slh_openssl() {
    local prefix=$work/prefix status=0 name
    mkdir -p "$prefix/lib"
    cp -r "$work/libslh-dev/usr/include" "$prefix/"
    cp "$work/libslh$number/$lib/$shared" "$prefix/lib/"
    ln -s "$shared" "$prefix/lib/libslh.so"
    SLH_RUNPATH='' "$here/bindings/openssl/build.sh" "$prefix" >&2 || status=$?
    [ $status != 3 ] || return 0
    [ $status = 0 ] || exit 1
    begin slh-openssl
    install -D -m 644 "$prefix/lib/ossl-modules/slh.so" "$root/$lib/ossl-modules/slh.so"
    strip --strip-unneeded "$root/$lib/ossl-modules/slh.so"
    gzip -9n <"$here/docs/OPENSSL.md" | write usr/share/doc/slh-openssl/OPENSSL.md.gz
    for name in ca.cnf ca.sh; do write usr/share/doc/slh-openssl/$name <"$here/examples/$name"; done
    sed "s|@MODULE@|/$lib/ossl-modules/slh.so|" "$here/bindings/openssl/slh.cnf.in" | write etc/ssl/slh.cnf
    echo /etc/ssl/slh.cnf | write DEBIAN/conffiles
    build slh-openssl
}

mkdir "$work/made"
make_libslh
make_libslh_dev
make_slh
make_slh_openssl
made=("$work"/made/*.deb)
mv "${made[@]}" "$folder/" || {
    rm -f "${made[@]/#"$work/made"/"$folder"}"
    exit 1
}
