#!/usr/bin/env bash
# Prints the version script of libslh.so for linkers: each public call gets the version SLH_N, and all else is hidden.
# N is the first number of the file VERSION, as in the name libslh.so.N (tools/targets.py). With --calls it prints the
# names of the public calls alone.
#
# usage: tools/symbols.sh [--calls]
set -euo pipefail
cd "$(dirname "${BASH_SOURCE[0]}")/.."
calls() {
    { sed -nE 's/^[A-Z]+\(([a-z_]*),$/\1/p' c/exports/calls.h && printf '%s\n' erase level refusal_text; } |
        sed 's/^/slh_/'
}
case "$#-${1-}" in
0-)
    echo "SLH_$(cut -d . -f 1 VERSION) {"
    echo "global:"
    calls | sed 's/.*/    &;/'
    echo "local:"
    echo "    *;"
    echo "};"
    ;;
1---calls) calls ;;
*)
    echo "usage: tools/symbols.sh [--calls]" >&2
    exit 2
    ;;
esac
