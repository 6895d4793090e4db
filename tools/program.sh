#!/usr/bin/env bash
# Builds the program `slh`, or the one of another crate, for processors of one level into FILE, stripped, over the
# libraries that `rt ci`, or `rt check` in its crate, has built: nobody looks whether a source has changed since. The
# kit's own linker makes it, with the kit's own files of the C library.
#
# usage: tools/program.sh LEVEL FILE [CRATE [LANES]]      LEVEL is x86-64-v2, x86-64-v3 or x86-64-v4; LANES is a name of
#                                                         tools/targets.py, in place of the level's own
#        tools/program.sh x86-64 FILE                     c/starter.c, which runs the program for the best level. It
#                                                         stands on no crate
#
# rattle knows no x86-64-v4: it makes the module for x86-64-v3, which tools/clang.sh has compiled for x86-64-v4. That
# program looks for x86-64-v3 alone when it starts: who runs it has to look for the rest.
set -euo pipefail
here=$(cd "$(dirname "${BASH_SOURCE[0]}")/.." && pwd)
if [ $# -lt 2 ] || [ $# -gt 4 ] || [[ $1 != x86-64-v[234] && "$#-$1" != 2-x86-64 ]]; then
    echo "usage: tools/program.sh LEVEL FILE [CRATE [LANES]], or x86-64 FILE" >&2
    exit 2
fi
crate=${3:-slh}
work=$(mktemp -d)
trap 'rm -rf "$work"' EXIT
kit() { "$here/tools/kit.py" path "$1"; }

# Compiles files of C to objects beside each other. Paths are relative, so that none of this machine is in them.
compile() {
    local file
    for file; do
        (cd "$here" && exec -a clang "$(kit toolchain/bin/clang)" --target=x86_64-unknown-linux-gnu -std=c11 -O2 -fPIE \
            -ffreestanding -nostdinc -I c/exports/freestanding -fvisibility=hidden -fno-asynchronous-unwind-tables \
            -Wall -Wextra -Werror -c "$file" -o "$work/${file//\//_}.o")
    done
}

# It has no C library, and nobody relocates it.
chooser() {
    compile c/starter.c c/exports/{chosen,processor}.c
    "$(kit toolchain/bin/ld.lld)" -pie --no-dynamic-linker -z norelro --strip-all -o "$work/slh" "$work"/*.o
    install -D -m 755 "$work/slh" "$1"
}

if [ "$1" = x86-64 ]; then
    chooser "$2"
    exit
fi

level=$1 toolchain=$work/toolchain
[ "$1" != x86-64-v4 ] || level=x86-64-v3
"$here/tools/targets.py" toolchain "$toolchain" "$1" "${4:-$1}"
mapfile -t build < <("$here/tools/kit.py" build "$crate" "$toolchain")
mkdir -p "$here/crates/$crate/out/incremental"
(cd "$here/crates/$crate" && "${build[@]}" --incremental out/incremental --jobs "$(nproc)" --cpu "$level" \
    -o "$work/slh.o") >&2
# As `rt run` links a program: with the C code of the crates `os` and `libc`. And with what single messages are hashed by.
compile c/exports/{chosen,processor,sha256_x86}.c
(cd "$work" && "$(kit bin/rattle-link)" --target x86_64-unknown-linux-gnu --toolchain "$(kit toolchain)" -o slh slh.o \
    c_exports_*.o "$(kit c/libos_c.a)" "$(kit c/liblibc_c.a)") >&2
# The kit's clang is all of LLVM's tools, by the name that it is called by.
(exec -a llvm-strip "$(kit toolchain/bin/clang)" "$work/slh")
install -D -m 755 "$work/slh" "$2"
