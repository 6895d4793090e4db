#!/usr/bin/env bash
# Writes the page that verifies, bindings/web/verify.html with slh.wasm in it, into FILE: one file, which works where it
# is opened from a folder, and whose hash is that of all that judges.
#
# usage: tools/web_page.sh [DIST] FILE
#
# DIST is a folder as tools/release.sh writes it (default: dist). Its wasm32/slh.wasm has to have the hash that
# SHA256SUMS lists.
set -euo pipefail
here=$(cd "$(dirname "${BASH_SOURCE[0]}")/.." && pwd)
if [ $# = 0 ] || [ $# -gt 2 ]; then
    echo "usage: tools/web_page.sh [DIST] FILE" >&2
    exit 2
fi
dist=$here/dist
if [ $# = 2 ]; then
    dist=$1
    shift
fi
listed=$(awk '$2 == "wasm32/slh.wasm"' "$dist/SHA256SUMS")
if [ -z "$listed" ] || ! (cd "$dist" && sha256sum --check --status <<<"$listed"); then
    echo "tools/web_page.sh: wasm32/slh.wasm is missing or damaged, or SHA256SUMS does not list it" >&2
    exit 1
fi
place='<script type="text/plain" id="module"></script>'
page=$(cat "$here/bindings/web/verify.html")
[[ $page == *"$place"* ]] || {
    echo "tools/web_page.sh: bindings/web/verify.html has no place for the module" >&2
    exit 1
}
module=$(base64 -w 0 "$dist/wasm32/slh.wasm")
printf '%s%s%s%s\n' "${page%%"$place"*}" "${place%</script>}" "$module" "</script>${page#*"$place"}" >"$1" || {
    [ ! -f "$1" ] || rm "$1"
    exit 1
}
