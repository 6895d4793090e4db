#!/usr/bin/env bash
# Writes what is installed beside the library into FOLDER/share: for CMake, and the manual page of the calls. With a
# PROGRAM `slh` of a VERSION also its man page and its completions for bash and zsh. They are made of its own help texts
# and of the refusals in docs/FORMATS.md.
#
#   share/cmake/                              slh-config.cmake, and slh-config-version.cmake.in with @version@, @pointer@
#   share/man/man3/slh.3, man1/slh.1
#   share/bash-completion/completions/slh, share/zsh/site-functions/_slh
#
# usage: tools/share.sh FOLDER [PROGRAM VERSION]
set -euo pipefail
here=$(cd "$(dirname "${BASH_SOURCE[0]}")/.." && pwd)
if [ $# != 1 ] && [ $# != 3 ]; then
    echo "usage: tools/share.sh FOLDER [PROGRAM VERSION]" >&2
    exit 2
fi
share=$1/share

# What the program says of itself: its PROGRAM, VERSION, KIND and the file.
texts() {
    mkdir -p "$share/${4%/*}"
    "$here/bindings/debian/from_help.py" "$1" "$2" "$3" >"$share/$4"
}

install -D -m 644 -t "$share/cmake" "$here"/bindings/cmake/slh-config{.cmake,-version.cmake.in}
install -D -m 644 "$here/bindings/debian/slh.3" "$share/man/man3/slh.3"
if [ $# = 3 ]; then
    texts "${@:2}" man man/man1/slh.1
    texts "${@:2}" bash bash-completion/completions/slh
    texts "${@:2}" zsh zsh/site-functions/_slh
fi
