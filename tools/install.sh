#!/usr/bin/env bash
# Installs the program `slh` and, by tools/library.sh, the library for C: those of the release in dist/ where the
# sources are those that it was built of and each file has the hash that is listed; else it builds them.
#
#   PREFIX/bin/slh                            a link to PREFIX/lib/slh/x86-64/slh, which runs the best build for the
#                                             processor that it finds at each start
#   PREFIX/lib/slh/x86-64-v2/slh, -v3/, -v4/  the builds
#   PREFIX/share/man/man1/slh.1               the man page, and completions for bash and zsh:
#   PREFIX/share/bash-completion/completions/slh, PREFIX/share/zsh/site-functions/_slh
#
# and what tools/library.sh installs. PREFIX can be moved, and shared by machines.
#
# usage: tools/install.sh PREFIX
#
# SLH_BUILD=1 and what is done without rt are as tools/library.sh says. Nothing is installed of a release but files that
# its SHA256SUMS lists. If a file is damaged or missing, and can't be built, the status is 2, and nothing is installed.
set -euo pipefail
here=$(cd "$(dirname "${BASH_SOURCE[0]}")/.." && pwd)
source "$here/tools/released.sh"
levels=(x86-64-v2 x86-64-v3 x86-64-v4) chooser=x86-64
all_texts=(share/{man/man1/slh.1,bash-completion/completions/slh,zsh/site-functions/_slh}) texts=("${all_texts[@]}")
if [ $# != 1 ] || [[ $1 = -* ]]; then
    echo "usage: tools/install.sh PREFIX" >&2
    exit 2
fi
umask 022
work=$(mktemp -d)
trap 'rm -rf "$work"' EXIT

if has_release && ! lists "${texts[0]}"; then texts=(); fi # releases up to 0.13.0

if takes_release $chooser/slh "${levels[@]/%//slh}" ${texts[@]+"${texts[@]}"}; then
    made=$here/dist
    [ ${#texts[@]} != 0 ] || echo "install.sh: the release has no man page and no completions: none are installed" >&2
else
    command -v rt >/dev/null || {
        echo "install.sh: there is nothing to install: rt is not on the path to build it" >&2
        exit 2
    }
    (cd "$here/crates/slh" && rt check) >&2
    made=$work/made
    for level in $chooser "${levels[@]}"; do
        "$here/tools/program.sh" "$level" "$made/$level/slh"
    done
    "$here/tools/share.sh" "$made" "$made/x86-64-v2/slh" "$(cat "$here/VERSION")"
    texts=("${all_texts[@]}")
fi

"$here/tools/library.sh" "$1"
prefix=$(cd "$1" && pwd)
for level in $chooser "${levels[@]}"; do
    install -D -m 755 "$made/$level/slh" "$prefix/lib/slh/$level/slh"
done
for file in ${texts[@]+"${texts[@]}"}; do
    install -D -m 644 "$made/$file" "$prefix/$file"
done
mkdir -p "$prefix/bin"
ln -sfn ../lib/slh/$chooser/slh "$prefix/bin/slh"
