# Marks a module for ARM's branch protection, for tools/clang.sh: LLVM's text in, the same out. Then each function that
# an indirect branch may reach begins with `bti c` or `paciasp`, and a return address is signed before it is stored. The
# object's note says so (BTI, PAC). Older processors take these instructions as nops.
$ a\!llvm.module.flags = !{!900000, !900001}
$ a\!900000 = !{i32 8, !"branch-target-enforcement", i32 1}
$ a\!900001 = !{i32 8, !"sign-return-address", i32 1}
