# Has the proved code of a message that is hashed alone ask for the SHA instructions of x86-64, for tools/clang.sh: LLVM's
# text in, the same out. `compress` of the kit's `sha2` adds a block to a hash value. It gets another name, and its name
# goes to a function that jumps to it, or to slh_sha256 of c/exports/sha256_x86.c if slh_has_sha says that the processor
# has the instructions. What is declared of these two lets LLVM omit as many copies of hash values as without them.
# tests/test_sha_instructions.py compares both ways.
/^define .*@"sha2::block256::compress"\(ptr noundef %a0, ptr noundef %a1, i64 noundef %a2\) /{
    p
    i\start:
    i\  %sha = call i32 @slh_has_sha()
    i\  %has_sha = icmp ne i32 %sha, 0
    i\  br i1 %has_sha, label %instructions, label %plain
    i\instructions:
    i\  musttail call void @slh_sha256(ptr %a0, ptr %a1, i64 %a2)
    i\  ret void
    i\plain:
    i\  musttail call void @"sha2::block256::compress_plain"(ptr %a0, ptr %a1, i64 %a2)
    i\  ret void
    i\}
    s/::compress"/::compress_plain"/
}
$ a\declare hidden i32 @slh_has_sha() #900000
$ a\declare hidden void @slh_sha256(ptr captures(none), ptr captures(none) readonly, i64) #900001
$ a\attributes #900000 = { nounwind nofree nosync willreturn memory(inaccessiblemem: readwrite) }
$ a\attributes #900001 = { nounwind nofree nosync willreturn memory(argmem: readwrite) }
