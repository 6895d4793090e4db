#!/usr/bin/env bash
# The test command. With rt it runs `rt ci`, builds a release in out/release and compares it with dist/, tries wrong
# bodies, and runs pytest over the release. Without rt it runs pytest over dist/. tests/README.md says what it prints.
# usage: tools/test.sh [--no-setup] [--quick | [--release] [--few]] [--all]
#   --no-setup   installs nothing; else missing tools are installed, as root on Debian, or named
#   --quick      builds the program by the work that earlier checks kept, and tests it, the layout of all files, pages
#                and changed wrong bodies: no `rt ci`, no tables and no library
#   --release    tests the release in dist/, also if rt is there
#   --few        the same, with a few tests of each kind
#   --all        draws nothing: where tests draw one of several parts (a level, a set, a target), all are run
#   --help       prints this
set -uo pipefail
cd "$(dirname "${BASH_SOURCE[0]}")/.." || exit 2
usage() { sed -n '/^# usage:/,/^#   --help/s/^# \{0,1\}//p' tools/test.sh; }
setup=yes mode=whole few=
for word in "$@"; do
    case "$mode $word" in
    *" --no-setup") setup=no ;;
    "whole --quick") mode=quick few=--few ;;
    "whole --release" | "release --release") mode=release ;;
    "whole --few" | "release --few" | "few --release") mode=few few=--few ;;
    *" --all") export SLH_SEED=all ;;
    *" --help" | *" -h") usage && exit ;;
    *) { echo "tools/test.sh: unknown word: $word" && usage; } >&2 && exit 2 ;;
    esac
done
[ $mode != whole ] || command -v rt >/dev/null || mode=release
if ! missing=$(tools/setup.sh --missing $few) && [ "$setup $(id -u)" = "yes 0" ] && [ -f /etc/debian_version ]; then
    timeout 1200 tools/setup.sh $few </dev/null && missing= || missing=$(tools/setup.sh --missing $few)
fi
[ -n "$few$missing" ] || export SLH_TOOLS=all # so that no test may be skipped for want of one
[ -z "$missing" ] || echo "missing: $missing. tools/setup.sh installs them, as root on Debian; else install them by" \
    "other means. The tests that need them are skipped."
! command -v python3 >/dev/null || exec python3 tests/parts.py $mode
echo "rt ci: SKIPPED, since there is no rt"
echo "all tests: SKIPPED, since there is no pytest (to be had by the package python3-pytest)"
(cd dist && sha256sum --check --quiet SHA256SUMS >&2) && echo "1 passed, 0 failed, 2 skipped" && exit
printf '%s\n' "failed:" "dist/ is as listed: no" "0 passed, 1 failed, 2 skipped" && exit 1
