# Marks a module for Intel's CET, for tools/clang.sh: LLVM's text in, the same out. Then each function that an indirect
# branch may reach begins with `endbr64`. The object's note says so (IBT), and allows a shadow stack (SHSTK).
$ a\!llvm.module.flags = !{!900000, !900001}
$ a\!900000 = !{i32 8, !"cf-protection-branch", i32 1}
$ a\!900001 = !{i32 8, !"cf-protection-return", i32 1}
