#!/usr/bin/env bash
# Prints the SHA-256 of all that the program and the library for C are made of: the crates `slh`, `slh_c`,
# `slh_c_verify` and those below them, with their lines of crates.txt, their sources, definitions and proofs, and
# without tests; the C round the exports and that of the portable C, the headers, and c/starter.c; HANDLES and VERSION;
# and the scripts that build. It needs no kit. With `share` it is that of what tools/share.sh reads, and with `rust` that
# of what tools/plain_rust.py reads beyond those.
#
# usage: tools/sources.sh [share | rust]
set -euo pipefail
cd "$(dirname "${BASH_SOURCE[0]}")/.."
export LC_ALL=C
if [ "${1-}" = share ]; then
    sha256sum VERSION bindings/cmake/slh-config{.cmake,-version.cmake.in} bindings/debian/{from_help.py,slh.3} \
        docs/FORMATS.md tools/share.sh | sha256sum | cut -d ' ' -f 1
    exit
fi
if [ "${1-}" = rust ]; then
    find tools/plain_rust tools/plain_rust.py bindings/rust/slh{,-signature,-sys} \
        \( -name target -o -name Cargo.lock \) -prune -o -type f -print0 |
        sort -z | xargs -0 sha256sum | sha256sum | cut -d ' ' -f 1
    exit
fi

# The crates `slh`, `slh_c` and `slh_c_verify` and those below them, each with its line.
lines() {
    awk -F: '
        function visit(name, below, count, i) {
            if (!(name in line) || name in seen) return
            seen[name]
            print line[name]
            count = split(uses[name], below, " ")
            for (i = 1; i <= count; i++) visit(below[i])
        }
        { sub(/#.*/, "") }
        NF == 2 { split($1, head, " "); line[head[1]] = $0; uses[head[1]] = $2 }
        END { visit("slh"); visit("slh_c"); visit("slh_c_verify") }
    ' crates.txt | sort
}

mapfile -t lines < <(lines)
crates=("${lines[@]%%[: ]*}")
{
    printf '%s\n' "${lines[@]}"
    {
        find HANDLES VERSION c/{exports,include,portable} c/starter.c \
            tools/{clang.sh,for_128.sed,for_hook.sed,for_machine.sed,for_size.sed,kit.py,lay_out.py} \
            tools/for_{pads_arm,pads_x86,sha256_arm,sha256_x86,sha512_arm,single_arm,single_long_arm,single_x86}.sed \
            tools/{portable.py,program.sh,symbols.sh,targets.py} -type f -print0
        find "${crates[@]/#/crates/}" -type d \( -name out -o -name tests -o -name wrong -o -name must-fail \) -prune \
            -o -type f \( -path '*/src/*' -o -path '*/specs/*' -o -path '*/proofs/*' \) ! -name 'tests.*' -print0
    } | sort -z | xargs -0 sha256sum
} | sha256sum | cut -d ' ' -f 1
