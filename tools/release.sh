#!/usr/bin/env bash
# Writes the release of this version into dist/, or checks that dist/ is what the sources give:
#
#   dist/x86-64/                  libslh.a and libslh.so.1, with the code for each level below, and slh, which runs the
#                                 program of a level where it is installed
#   dist/x86-64-v2/, -v3/, -v4/   the program slh, libslh.a and libslh_verify.a
#   dist/TARGET/                  what tools/targets.py makes for each other machine: archives, slh.dll, slh.wasm
#   dist/portable/                slh.c and slh_verify.c
#   dist/include/                 the headers
#   dist/share/                   what is installed beside them, as tools/share.sh writes it
#   dist/rust/                    the proved crates as plain Rust, as tools/plain_rust.py writes them
#   dist/BUILD                    the version, the hashes of the sources and of those of share/ and rust/
#                                 (tools/sources.sh), the kit, python3, rustfmt, and the hashes of what compiles and of
#                                 what is linked with: the kit's files, tools/clang.sh, and wasm2c
#   dist/SBOM.spdx.json           the bill of materials, as tools/sbom.py writes it
#   dist/SHA256SUMS               the hashes of all these files
#   dist/SHA256SUMS.sig           its signature, if SLH_RELEASE_KEY names a secret key file (tools/sign_release.sh)
#
# usage: tools/release.sh [--after-ci] VERSION     VERSION is that of the file VERSION, and nothing is uncommitted
#        tools/release.sh [--after-ci] --check [FOLDER]     builds all again and compares, bit for bit
#
# `rt check` proves each crate that is not proved yet. It does not run with --after-ci: `rt ci` has just proved all.
# --check leaves its build in FOLDER, if one is named. Its last line is 'N passed, M failed'. If the sources or the kit
# are not those of dist/BUILD, or rt is missing, it says so and compares only the hashes. The status is then 3, and with
# --after-ci 0. tools/tag_text.py writes the text of a tag for the release.
set -euo pipefail
here=$(cd "$(dirname "${BASH_SOURCE[0]}")/.." && pwd)
source "$here/tools/released.sh"
usage() {
    echo "usage: tools/release.sh [--after-ci] VERSION, or --check [FOLDER]" >&2
    exit 2
}
passed=0 failed=0 skipped=0

# Counts a comparison, and prints its result: NAME, and the command whose status says whether it is as it should be. The
# test command prints the failures that SLH_FAILURES has.
tell() {
    local name=$1
    shift
    if "$@" >&2; then
        passed=$((passed + 1)) && echo "$name: yes"
    else
        failed=$((failed + 1)) && echo "$name: no" | tee -a "${SLH_FAILURES:-/dev/null}"
    fi
}

# Counts a part that is not compared, and prints the cause: NAME, then the cause.
skip() {
    skipped=$((skipped + 1))
    echo "$1: SKIPPED, since $2"
}

# Prints the counts as the last line. The status is 0 if nothing failed.
end_counts() {
    echo "$passed passed, $failed failed, $skipped skipped"
    [ $failed = 0 ]
}

after_ci=no
if [ "${1-}" = --after-ci ]; then
    after_ci=yes
    shift
fi
[ $# = 1 ] || [ "$#-${1-}" = 2---check ] || usage
work=$(mktemp -d)
trap 'rm -rf "$work"' EXIT

# Whether share/ is made of what the release's was made of: pages may change, and the sources be those of the release.
has_share_of_release() { [ "$(release_says share)" = "$("$here/tools/sources.sh" share)" ]; }

# Whether rust/ is made of what the release's was made of, and laid out by the same rustfmt.
has_rust_of_release() {
    [ "$(release_says rust)" = "$("$here/tools/sources.sh" rust)" ] && [ "$(release_says rustfmt)" = "$(rustfmt_version)" ]
}

# Nothing without rustfmt.
rustfmt_version() { ! command -v rustfmt >/dev/null || rustfmt --version | cut -d ' ' -f 2; }

has_wasm2c() { "$here/tools/portable.py" wasm2c >/dev/null 2>&1; }

# The hash of the list of hashes of all files below a folder of the kit.
sum_of_folder() {
    (cd "$("$here/tools/kit.py" path "$1")" && find . -type f -print0 | LC_ALL=C sort -z | xargs -0 sha256sum) |
        sha256sum | cut -d ' ' -f 1
}

# The kit: its name, the sum of its logic, and the hashes of what compiles, of which one file is not the kit's, and of
# what is linked with. The scripts of the build need python3, too.
kit_lines() {
    rt version | sed -n 's/^\([^ ]*\) logic \([^ ]*\).*/kit \1\nlogic \2/p'
    sed -n 's/^archive /kit_archive /p' "$("$here/tools/kit.py" path WHAT)"
    (exec -a clang "$("$here/tools/kit.py" path toolchain/bin/clang)" --version) | sed -n '1s/^/compiler /p'
    local file
    echo "python3 $(python3 -c 'import platform; print(platform.python_version())')"
    for file in bin/rattle bin/rattle-link toolchain/bin/{clang,rattle-x64}; do
        echo "$file $(sha256sum <"$("$here/tools/kit.py" path "$file")" | cut -d ' ' -f 1)"
    done
    for file in toolchain/lib c/; do echo "$file $(sum_of_folder "$file")"; done
    echo "tools/clang.sh $(sha256sum <"$here/tools/clang.sh" | cut -d ' ' -f 1)"
    ! has_wasm2c || echo "wabt/wasm2c $(sha256sum <"$("$here/tools/portable.py" wasm2c)" | cut -d ' ' -f 1)"
}

# Builds all into a folder. Without wasm2c the portable C is not made, and that of dist/ stands there; so does plain Rust
# without rustfmt.
build() {
    local level
    if [ "$after_ci" = no ]; then
        (cd "$here/crates/slh" && rt check) >&2
        (cd "$here/crates/slh_c" && rt check) >&2
        (cd "$here/crates/slh_c_verify" && rt check) >&2
    fi
    "$here/tools/targets.py" release "$1"
    if has_wasm2c; then "$here/tools/targets.py" portable "$1"; else cp -r "$here/dist/portable" "$1"; fi
    for level in x86-64 x86-64-v2 x86-64-v3 x86-64-v4; do
        "$here/tools/program.sh" "$level" "$1/$level/slh"
    done
    install -D -m 644 -t "$1/include" "$here"/c/include/*.h "$here"/c/include/*.hpp
    "$here/tools/share.sh" "$1" "$1/x86-64-v2/slh" "$(cat "$here/VERSION")"
    if [ -n "$(rustfmt_version)" ]; then
        "$here/tools/plain_rust.py" "$1/rust" >&2
    elif [ -d "$here/dist/rust" ]; then
        cp -r "$here/dist/rust" "$1"
    fi
    {
        echo "version $(cat "$here/VERSION")"
        echo "sources $("$here/tools/sources.sh")"
        echo "share $("$here/tools/sources.sh" share)"
        echo "rust $("$here/tools/sources.sh" rust)"
        [ -z "$(rustfmt_version)" ] || echo "rustfmt $(rustfmt_version)"
        kit_lines
    } >"$1/BUILD"
    "$here/tools/sbom.py" "$1"
    (cd "$1" && find . -type f -printf '%P\0' | LC_ALL=C sort -z | xargs -0 sha256sum >"$work/sums" && mv "$work/sums" SHA256SUMS)
}

write() {
    if [ "$1" != "$(cat "$here/VERSION")" ]; then
        echo "tools/release.sh: the file VERSION says $(cat "$here/VERSION")" >&2
        exit 2
    fi
    if ! has_wasm2c; then
        echo "tools/release.sh: there is no wasm2c" >&2
        exit 2
    fi
    if [ -z "$(rustfmt_version)" ]; then
        echo "tools/release.sh: there is no rustfmt" >&2
        exit 2
    fi
    if [ -n "$(git -C "$here" status --porcelain -- . ':!dist')" ]; then
        echo "tools/release.sh: something is not committed" >&2
        exit 2
    fi
    build "$work/dist"
    [ -z "${SLH_RELEASE_KEY-}" ] || "$here/tools/sign_release.sh" "$work/dist" "$SLH_RELEASE_KEY"
    rm -rf "$here/dist"
    mv "$work/dist" "$here/dist"
    write_numbers
    echo "dist/ is the release $1. After its commit: tools/tag_text.py | git tag -a -F - v$1"
}

# Writes the sizes and the stack of what is now in dist/ into the documents.
write_numbers() {
    local folder targets=()
    "$here/tools/library.sh" "$work/prefix" >&2
    for folder in "$here"/dist/*/; do
        case "$folder" in */x86-64/ | */include/ | */share/ | */rust/) continue ;; esac
        folder=${folder%/} && targets+=("${folder##*/}=$folder")
    done
    "$here/tools/numbers.py" --write "x86-64=$work/prefix" "${targets[@]}" >&2
}

# Says why nothing is compared, and ends.
not_compared() {
    skip "a comparison of dist/ with what the sources give" "$1"
    [ "$made" = "$work/dist" ] || build "$made"
    end_counts || exit 1
    [ "$after_ci" = yes ] || exit 3
    exit 0
}

check() {
    local file made=$work/dist
    [ -z "$1" ] || made=$(realpath -m "$1")
    has_release || not_compared "there is no release in dist/"
    mapfile -t files < <(cd "$here/dist" && find . -type f ! -name SHA256SUMS ! -name SHA256SUMS.sig -printf '%P\n' |
        LC_ALL=C sort)
    for file in "${files[@]}"; do
        tell "dist/$file has the hash that SHA256SUMS lists" are_whole "$file"
    done
    tell "SHA256SUMS lists no other file" diff <(printf '%s\n' "${files[@]}") \
        <(awk '{ print $2 }' "$here/dist/SHA256SUMS")
    tell "dist/ has files and folders alone" [ -z "$(find "$here/dist" ! -type f ! -type d | tee /dev/stderr)" ]
    [ ! -f "$here/dist/SBOM.spdx.json" ] ||
        tell "the bill of materials lists what is in dist/" "$here/tools/sbom.py" --check "$here/dist"
    command -v rt >/dev/null || not_compared "rt is not on the path"
    has_sources_of_release || not_compared "the sources are not those of dist/BUILD"
    tell "dist/BUILD has the version of the file VERSION" [ "$(release_says version)" = "$(cat "$here/VERSION")" ]
    has_wasm2c || skip "dist/portable" "there is no wasm2c"
    diff <(kit_lines | grep / | grep -v ^wabt/) <(grep / "$here/dist/BUILD" | grep -v ^wabt/) >&2 ||
        not_compared "the kit is not that of dist/BUILD"
    ! has_wasm2c || diff <(kit_lines | grep ^wabt/) <(grep ^wabt/ "$here/dist/BUILD") >&2 ||
        not_compared "wasm2c is not that of dist/BUILD"
    has_share_of_release || skip "dist/share" "its sources are not those of dist/BUILD"
    has_rust_of_release || skip "dist/rust" "its sources or rustfmt are not those of dist/BUILD"
    build "$made"
    for file in "${files[@]}"; do
        [ "$file" = BUILD ] || [ "$file" = SBOM.spdx.json ] || { [ "${file%%/*}" = portable ] && ! has_wasm2c; } ||
            { [ "${file%%/*}" = share ] && ! has_share_of_release; } ||
            { [ "${file%%/*}" = rust ] && ! has_rust_of_release; } ||
            tell "dist/$file is built again bit for bit" cmp "$here/dist/$file" "$made/$file"
    done
    end_counts
}

case "$1" in
--check) check "${2-}" ;;
-*) usage ;;
*) write "$1" ;;
esac
