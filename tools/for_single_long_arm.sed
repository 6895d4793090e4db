# Has the proved code of a message of SHA-512 that is hashed alone jump to slh_sha512 of c/exports/sha2_arm.c, which
# takes ARM's SHA-512 instructions, for tools/clang.sh: LLVM's text in, the same out. `compress` of the kit's `sha2` adds
# a block to a hash value. What is declared of slh_sha512 lets LLVM omit as many copies of hash values as without it.
# tests/test_sha_instructions.py compares both.
/^define .*@"sha2::block512::compress"\(ptr noundef %a0, ptr noundef %a1, i64 noundef %a2\) /,/^\}/ {
    /^define /{
        a\start:
        a\  musttail call void @slh_sha512(ptr %a0, ptr %a1, i64 %a2)
        a\  ret void
        b
    }
    /^\}/b
    d
}
$ a\declare hidden void @slh_sha512(ptr captures(none), ptr captures(none) readonly, i64) #900002
$ a\attributes #900002 = { nounwind nofree nosync willreturn memory(argmem: readwrite) }
