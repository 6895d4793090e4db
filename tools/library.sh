#!/usr/bin/env bash
# Installs the library for C. It takes the release in dist/ if that was built from these sources, and each file has the
# hash that SHA256SUMS lists. Otherwise it builds the library.
#
#   PREFIX/include/slh.h            the header, which includes
#   PREFIX/include/slh.hpp          types for C++17 over slh.h
#   PREFIX/include/slh_verify.h     the calls that verify, the numbers and the lengths
#   PREFIX/include/slh_internal.h   the calls for test vectors of the internal functions
#   PREFIX/lib/libslh.a             all calls, with code for the levels x86-64-v2, -v3 and -v4: the best one runs
#   PREFIX/lib/libslh-v2.a, libslh-v3.a, libslh-v4.a   the same for one level each
#   PREFIX/lib/libslh_verify.a      the calls of slh_verify.h alone, for firmware, and for x86-64-v2
#   PREFIX/lib/libslh.so.1          libslh.a as a shared object, and libslh.so, a link to it for linkers
#   PREFIX/lib/pkgconfig/slh.pc, slh_verify.pc     for pkg-config, with the version of the file VERSION
#   PREFIX/lib/cmake/slh/           for find_package(slh) of CMake, with the same version
#   PREFIX/share/man/man3/slh.3     the manual page of the calls, with a link to it for each call
#   PREFIX/src/slh.c, slh_verify.c  for --target portable: all calls, and those of slh_verify.h, as C for any machine
#   PREFIX/bin/slh.dll, lib/slh.lib for --target windows-x86-64: libslh.a as a DLL, and what imports it
#
# usage: tools/library.sh [--after-ci | --dist DIST] [--target TARGET] PREFIX
#        tools/library.sh --from-source [--target TRIPLE] PREFIX
#
# --from-source builds by cargo and stock rustc, without the kit: tools/from_source.sh lists the targets and the tools.
# It installs libslh.a, libslh.so.1 and libslh_verify.a with one level of code, and the headers and other files above.
#
# TARGET is x86-64, as without it, or one of tools/targets.py. The archives for one level are for x86-64 alone. Of a
# module for WebAssembly there is PREFIX/lib/slh.wasm alone, of portable the headers, PREFIX/src and what CMake reads.
# For a board there are slh_verify.h, libslh_verify.a with what pkg-config and CMake read, and libslh_verify_128.a,
# which is smaller and takes the sets of 128 bits alone.
#
# DIST is a release, a folder as tools/release.sh writes it: what it has is installed, whatever the sources are. Nothing
# is installed of a release but files that its SHA256SUMS lists, and what is written here.
# SLH_BUILD=1 takes none of dist/. Where rt is not on the path, so that nothing can be built, the release is installed
# whatever the sources are, and it is told that they differ. A build needs rt: `rt check` proves what is not proved yet.
# Under --after-ci it builds, and only the topmost crate is proved, over the libraries that `rt ci` has just proved and
# built: nobody looks whether a source has changed since.
set -euo pipefail
here=$(cd "$(dirname "${BASH_SOURCE[0]}")/.." && pwd)
source "$here/tools/released.sh"
after_ci=no target=x86-64 build=
if [ "${1-}" = --after-ci ]; then
    after_ci=yes
    shift
elif [ "${1-}" = --dist ] && [ $# -gt 1 ]; then
    after_ci=given dist=$(realpath "$2")
    shift 2
elif [ "${1-}" = --from-source ]; then
    after_ci=source target=
    shift
fi
if [ "${1-}" = --target ] && [ $# -gt 1 ]; then
    target=$2
    shift 2
fi
if [ $# != 1 ] || [[ $1 = -* ]]; then
    echo "usage: tools/library.sh [--after-ci | --dist DIST | --from-source] [--target TARGET] PREFIX" >&2
    exit 2
fi
work=$(mktemp -d)
trap 'rm -rf "$work"' EXIT

# Sets `files` to what is installed for x86-64, with the shared object of this number.
files_here() { files=(x86-64/{libslh.a,"libslh.so.$1"} x86-64-v{2,3,4}/libslh.a x86-64-v2/libslh_verify.a); }

# What of dist/ is installed: of another target than x86-64 all that is listed.
files_here "$(if has_release; then shared_number; fi)"
[ "$target" = x86-64 ] || mapfile -t files < <(listed "$target")
headers=(include/{slh.h,slh.hpp,slh_internal.h,slh_verify.h})
beside=(share/{cmake/slh-config.cmake,cmake/slh-config-version.cmake.in,man/man3/slh.3})
if has_release && ! lists "${beside[0]}"; then beside=(); fi # releases up to 0.13.0
if [ "$after_ci" = given ] || { [ "$after_ci" != source ] && ! command -v rt >/dev/null; }; then
    has_release || [ "$after_ci" = no ] || {
        echo "library.sh: there is no release in $dist" >&2
        exit 2
    }
    ! has_release || [ ${#files[@]} != 0 ] || {
        echo "library.sh: no target $target" >&2
        exit 2
    }
fi
wanted=(BUILD "${files[@]}" "${headers[@]}" ${beside[@]+"${beside[@]}"})
[ "$after_ci" != given ] || are_whole "${wanted[@]}" || exit 2
is_released() { [ "$after_ci" = no ] && [ ${#files[@]} != 0 ] && takes_release "${wanted[@]}"; }
if [ "$after_ci" = given ] || is_released; then
    made=$dist version=$(release_says version)
    how="the release $version"
    [ ${#beside[@]} != 0 ] ||
        echo "library.sh: the release $version has no files for CMake and no manual page: none are installed" >&2
elif [ "$after_ci" = source ]; then
    "$here/tools/from_source.sh" ${target:+--target "$target"} "$work/source"
    "$here/tools/share.sh" "$work"
    cp -r "$here/c/include" "$work/"
    beside=(share) files=(source/{libslh.a,"libslh.so.$(cut -d . -f 1 "$here/VERSION")",libslh_verify.a})
    made=$work version=$(cat "$here/VERSION") how="built from source by $(rustc --version)"
    build=$how
else
    command -v rt >/dev/null || {
        echo "library.sh: there is nothing to install: rt is not on the path to build it" >&2
        exit 2
    }
    [ "$after_ci" = yes ] || { (cd "$here/crates/slh_c" && rt check) && (cd "$here/crates/slh_c_verify" && rt check); } >&2
    "$here/tools/targets.py" "$target" "$work"
    cp -r "$here/c/include" "$work/"
    "$here/tools/share.sh" "$work"
    beside=(share)
    files_here "$(cut -d . -f 1 "$here/VERSION")"
    [ "$target" = x86-64 ] || mapfile -t files < <(cd "$work" && printf '%s\n' "$target"/*)
    made=$work version=$(cat "$here/VERSION") how="built of the sources"
fi

has() { [[ " ${files[*]} " = *"/$1 "* ]]; }
# A board has the calls that verify alone.
if has libslh_verify_128.a; then headers=(include/slh_verify.h); fi

# Writes NAME.pc for the archive libNAME: NAME and a line that describes it.
pkgconfig() {
    install -d "$prefix/lib/pkgconfig"
    cat >"$prefix/lib/pkgconfig/$1.pc" <<END
prefix=\${pcfiledir}/../..
includedir=\${prefix}/include
libdir=\${prefix}/lib
${build:+build=$build
}
Name: $1
Description: $2
Version: $version
Libs: -L\${libdir} -l$1
Cflags: -I\${includedir}
END
}

# Writes what find_package(slh) of CMake reads.
cmake_files() {
    install -D -m 644 -t "$prefix/lib/cmake/slh" "$made/share/cmake/slh-config.cmake"
    sed "s/@version@/$version/; s/@pointer@/$(pointer)/g" "$made/share/cmake/slh-config-version.cmake.in" \
        >"$prefix/lib/cmake/slh/slh-config-version.cmake"
}

# The bytes of a pointer: 4 where the archives have ELF of 32 bits, and 0 if any will do.
pointer() {
    if [ "$target" = portable ]; then
        echo 0
    else
        LC_ALL=C grep -qaP '\x7fELF\x01' "$prefix"/lib/libslh*.a && echo 4 || echo 8
    fi
}

# The manual page, which each call has a link to.
manual() {
    local call page=share/man/man3/slh.3
    install -D -m 644 "$made/$page" "$prefix/$page"
    for call in $(sed -n 's/^\.SH \(slh_\)/\1/p' "$made/$page"); do
        ln -sf slh.3 "$prefix/share/man/man3/$call.3"
    done
}

install -d "$1"
prefix=$(cd "$1" && pwd)
if has slh.wasm; then
    install -D -m 644 -t "$prefix/lib" "${files[@]/#/$made/}"
else
    install -D -m 644 -t "$prefix/include" "${headers[@]/#/$made/}"
    for file in "${files[@]}"; do
        case "$file" in
        *.c) place=src/${file##*/} mode=644 ;;
        *.dll) place=bin/${file##*/} mode=755 ;;
        *.so.*) place=lib/${file##*/} mode=755 ;;
        x86-64-v*/libslh.a) place=lib/libslh-${file:7:2}.a mode=644 ;;
        *) place=lib/${file##*/} mode=644 ;;
        esac
        install -D -m $mode "$made/$file" "$prefix/$place"
        if [[ $place = lib/libslh.so.* ]]; then ln -sf "${file##*/}" "$prefix/lib/libslh.so"; fi
    done
    if has libslh.a; then pkgconfig slh "SLH-DSA (FIPS 205) with SHA-2, proved by machine"; fi
    if has libslh_verify.a; then
        pkgconfig slh_verify "Verifying signatures of SLH-DSA (FIPS 205) with SHA-2, proved by machine"
    fi
    if [ ${#beside[@]} != 0 ]; then
        cmake_files
        if has libslh.a || has slh.c; then manual; fi
    fi
fi
if [[ $target = x86-64 || $after_ci = source ]]; then
    # Releases up to 0.4 put the code for a level there, and glibc would load it in place of what is installed now.
    rm -f "$prefix"/lib/glibc-hwcaps/x86-64-v{3,4}/libslh.so.*
fi
echo "installed in $prefix: $how"
