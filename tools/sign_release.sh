#!/usr/bin/env bash
# Signs the list of a release: writes DIST/SHA256SUMS.sig by the release's own program, and verifies it.
#
# usage: tools/sign_release.sh DIST KEY      KEY is a secret key file of `slh` (docs/RELEASES.md says how to keep it)
set -euo pipefail
if [ $# != 2 ] || [ ! -f "$1/SHA256SUMS" ]; then
    echo "usage: tools/sign_release.sh DIST KEY" >&2
    exit 2
fi
here=$(cd "$(dirname "${BASH_SOURCE[0]}")/.." && pwd)
source "$here/tools/released.sh"
dist=$(realpath "$1") key=$(realpath "$2")
work=$(mktemp -d)
trap 'rm -rf "$work"' EXIT
mapfile -t programs < <(programs_here)
program=${programs[0]-}
[ -n "$program" ] || { echo "tools/sign_release.sh: the release has no program for this processor" >&2; exit 2; }
"$program" public --key "$key" >"$work/public.key"
n=$(($(sed -n 3p "$work/public.key" | tr -d '\n' | wc -c) / 4)) # the digits of a public key are those of 2n bytes
"$program" sign --key "$key" --message "$dist/SHA256SUMS" --twice --random "$(od -An -v -tx1 -N "$n" /dev/urandom |
    tr -d ' \n')" >"$work/sig"
"$program" verify --key "$work/public.key" --message "$dist/SHA256SUMS" --signature "$work/sig" >&2
mv "$work/sig" "$dist/SHA256SUMS.sig"
