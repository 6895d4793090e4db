# What is asked of dist/ before a file of it is run or installed, and where its programs lie. ./slh, tools/library.sh,
# tools/release.sh and the test scripts read this with `source`, with the folder `here`. The tests set `dist` to another
# folder that tools/release.sh has written. Where the libraries lie tools/library.sh says, which installs them.
dist=$here/dist

# Whether there is a release at all.
has_release() { [ -f "$dist/BUILD" ] && [ -f "$dist/SHA256SUMS" ]; }

# What BUILD says under a name, as `version`.
release_says() { sed -n "s/^$1 //p" "$dist/BUILD"; }

# The programs of the release that this processor can run, the one of the highest level first. The loader of glibc tells
# the levels.
programs_here() {
    local level
    for level in $(/lib64/ld-linux-x86-64.so.2 --help | sed -n 's/^ *\(x86-64-v[0-9]\) (supported.*/\1/p' | sort -r); do
        [ ! -f "$dist/$level/slh" ] || echo "$dist/$level/slh"
    done
}

# The number of the release's shared object, libslh.so.N: the first one of its version.
shared_number() { release_says version | cut -d . -f 1; }

# The files of a target that SHA256SUMS lists, but for programs.
listed() {
    [ ! -f "$dist/SHA256SUMS" ] ||
        awk -v at="$1/" 'index($2, at) == 1 && at !~ /^(include|rust|share)\/$/ && $2 != at "slh" { print $2 }' \
            "$dist/SHA256SUMS"
}

# Whether SHA256SUMS lists a file.
lists() { awk -v file="$1" '$2 == file { found = 1 } END { exit !found }' "$dist/SHA256SUMS"; }

# Whether each line of SHA256SUMS has a hash and the path of a file within dist/. The first that has not is told.
has_plain_list() {
    local line
    line=$(grep -Ev -m 1 '^[0-9a-f]{64}  [A-Za-z0-9_][A-Za-z0-9._-]*(/[A-Za-z0-9_][A-Za-z0-9._-]*)*$' \
        "$dist/SHA256SUMS") || return 0
    echo "${0##*/}: ${dist#"$here/"}/SHA256SUMS is damaged: it has a line that names no file there: $line" >&2
    return 1
}

# Whether these files of dist/ have the hashes that SHA256SUMS lists. The first that has not is told.
are_whole() {
    local file sum sums name=${dist#"$here/"}
    local -x LC_ALL=C # grep takes ten times as long by UTF-8
    has_plain_list || return 1
    sums=$'\n'$(<"$dist/SHA256SUMS")$'\n'
    for file in "$@"; do
        if [ ! -f "$dist/$file" ]; then
            echo "${0##*/}: $name/$file is missing" >&2
        elif ! sum=$(sha256sum <"$dist/$file") || [[ $sums != *$'\n'"${sum%% *}  $file"$'\n'* ]] ||
            [[ $sums = *"  $file"$'\n'*"  $file"$'\n'* ]]; then
            echo "${0##*/}: $name/$file is damaged: $name/SHA256SUMS lists another hash" >&2
        else
            continue
        fi
        return 1
    done
}

# Whether the sources are those that the release was built of.
has_sources_of_release() { [ "$(release_says sources)" = "$("$here/tools/sources.sh")" ]; }

# Whether the files of dist/ are those to take: they are whole, and the sources are those of the release. Where rt is
# not on the path, so that nothing else can be had, other sources are no hindrance, and are told.
takes_release() {
    [ "${SLH_BUILD-}" != 1 ] && has_release || return 1
    has_sources_of_release & # meanwhile: ./slh asks at each run
    are_whole BUILD "$@" || return 1
    wait $! || takes_other_sources
}

takes_other_sources() {
    ! command -v rt >/dev/null || return 1
    echo "${0##*/}: rt is not on the path: this is the release $(release_says version), and the sources differ from it" >&2
}
