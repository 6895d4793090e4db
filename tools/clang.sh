#!/bin/sh
# Stands in for the kit's clang where `rattle build` compiles a proved module for a target: it changes two numbers of
# the module and a word of the command line or a few, and runs the kit's clang. `tools/targets.py toolchain` makes the
# folder for --toolchain, in which this is bin/clang, kit/clang is the kit's, and the files lanes, word and size have:
#
#   lanes   what crates/slh_width answers: two numbers of its enum Width, in place of Eight. No contract tells them
#   word    -march=x86-64-v4 in place of -march=x86-64: AVX-512 F, BW, CD, DQ and VL
#           -march=armv8-a+sha2 in place of -march=armv8-a: ARM's instructions for SHA-256; with +sha3 also those for
#           SHA-512 and SHA-3
#           -msha behind -march=x86-64: x86's SHA instructions
#           -msimd128 behind -mcpu=lime1: WebAssembly's vectors of 128 bits, and with them a higher limit for inlining,
#           by which the rounds of a compression stand in it, as they do in code for the other targets
#           module: nothing is compiled, and an empty object written; the module is left there as it came, too, so
#           that it can be had with other lanes
#           or nothing
#   size    small: for_size.sed gives the functions attributes
#           or fast
#   rules   for_sha256_arm.sed, for_sha512_arm.sed, for_sha256_x86.sed: functions of slh_lanes::instructions get bodies of
#           the processor's SHA instructions. for_single_x86.sed: single messages ask for those of x86-64.
#           for_single_arm.sed, for_single_long_arm.sed: single messages of SHA-256 and of SHA-512 take ARM's.
#           for_pads_x86.sed, for_pads_arm.sed: functions begin with a pad for indirect branches
#           or nothing
#
# The module as it is compiled is left there as module.ll, for the targets that rattle does not build for.
#
# The module names x86-64-v3 for its functions, and no features: so they have those of the command line. A command line
# or a module that has not what is to be changed is refused, so that nothing is compiled for another target than the
# caller says. rattle clears the environment, which is not read here.
set -eu
PATH=/usr/bin:/bin
here=${0%/*}/..
read -r word <"$here/word"
read -r size <"$here/size"
read -r rules <"$here/rules"
refuse() {
    echo "tools/clang.sh: $1" >&2
    exit 2
}

# The words as they were, but for one: each is taken from the front, and put behind the last.
found=no module= written=no target= output= before=
for it in "$@"; do
    shift
    [ "$before" != -o ] || output=$it
    before=$it
    case $word$it in
    -march=x86-64-v4-march=x86-64 | -march=armv8-a+sha2*-march=armv8-a) set -- "$@" "$word" && found=yes ;;
    -msha-march=x86-64) set -- "$@" "$it" "$word" && found=yes ;;
    -msimd128-mcpu=lime1) set -- "$@" "$it" "$word" -mllvm -inline-threshold=500 && found=yes ;;
    *module.bc) module=$it && set -- "$@" "$it.ll" ;;
    *rewritten.ll) written=yes && set -- "$@" "$it" ;;
    *--target=*) target=$it && set -- "$@" "$it" ;;
    *) set -- "$@" "$it" ;;
    esac
done
case $word in '' | module) found=yes ;; esac
[ $found = yes ] || refuse "no word on the command line that stands before $word or in its place"
# For ARM rattle has the module compiled to text, changes that, and calls again: there the numbers are written already.
[ $written = no ] || exec "$here/kit/clang" "$@"
[ -n "$module" ] || refuse "no module is on the command line"

# The module as text, in which the body of slh_width::build_widths stores Eight, which is 2, twice.
"$here/kit/clang" --no-default-config $target -x ir "$module" -S -emit-llvm -O3 -Xclang -disable-llvm-passes -o "$module.as-proved"
read -r short long <"$here/lanes"
sed "/^define .*@\"slh_width::build_widths\"() /,/^}/ {
    s/^  store i8 2, ptr %r1, align 1\$/  store i8 $short, ptr %r1, align 1/
    s/^  store i8 2, ptr %r2, align 1\$/  store i8 $long, ptr %r2, align 1/
}" "$module.as-proved" >"$module.ll"
[ "$(sed -n '/^define .*@"slh_width::build_widths"() /,/^}/p' "$module.as-proved" | grep -c '^  store i8 2, ptr %r[12], ')" = 2 ] ||
    refuse "slh_width::build_widths is not in the module, or not as it was"
if [ $size = small ]; then
    mv "$module.ll" "$module.fast" && sed -E -f "$here/for_size.sed" "$module.fast" >"$module.ll"
    [ "$(grep -c '^define .* nounwind noinline optsize {$' "$module.ll")" = 7 ] &&
        [ "$(grep '^define ' "$module.ll" | grep -vc ' optsize {$')" = 3 ] ||
        refuse "the module does not have the functions that for_size.sed names, once each"
fi
# Each function that a rule names is there once, and gets the rule's body: as many calls are new as the rule has.
for rule in $rules; do
    mv "$module.ll" "$module.plain" && sed -E -f "$here/$rule" "$module.plain" >"$module.ll"
    for it in $(sed -n 's/^[/]^define [.][*]@"\([a-z0-9_:]*\)".*/\1/p' "$here/$rule"); do
        [ "$(grep -c "^define .*@\"$it\"(" "$module.plain")" = 1 ] || refuse "the module does not have $it once"
    done
    [ "$(diff "$module.plain" "$module.ll" | grep -c '^> .* call .*@')" = "$(grep -c '^ .* call .*@' "$here/$rule")" ] ||
        refuse "the module does not have the functions of $rule as it names them"
done
cp "$module.ll" "$here/module.ll"
if [ "$word" = module ]; then
    cp "$module" "$here/module.bc"
    exec "$here/kit/clang" $target -c -x ir /dev/null -o "$output"
fi
exec "$here/kit/clang" "$@"
