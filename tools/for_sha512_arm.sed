# Exchanges the bodies of the two functions for SHA-512 of crates/slh_lanes/src/instructions.rt for ARM's SHA-512
# instructions, for tools/clang.sh: LLVM's text in, the same out. `two_rounds` gets a state of four vectors and two sums
# of a constant and a word, `next_pair` eight words. Both write their result to the first pointer.
# tests/test_sha_instructions.py compares the new bodies with the proved ones.
/^define .*@"slh_lanes::instructions::two_rounds"\(ptr noundef %a0, ptr noundef %a1, ptr noundef %a2\) /,/^\}/ {
    /^define /{
        a\start:
        a\  %from.cd = getelementptr i8, ptr %a1, i64 16
        a\  %from.ef = getelementptr i8, ptr %a1, i64 32
        a\  %from.gh = getelementptr i8, ptr %a1, i64 48
        a\  %ab = load <2 x i64>, ptr %a1, align 8
        a\  %cd = load <2 x i64>, ptr %from.cd, align 8
        a\  %ef = load <2 x i64>, ptr %from.ef, align 8
        a\  %gh = load <2 x i64>, ptr %from.gh, align 8
        a\  %x = load <2 x i64>, ptr %a2, align 8
        a\  %y = shufflevector <2 x i64> %x, <2 x i64> poison, <2 x i32> <i32 1, i32 0>
        a\  %sum = add <2 x i64> %gh, %y
        a\  %fg = shufflevector <2 x i64> %ef, <2 x i64> %gh, <2 x i32> <i32 1, i32 2>
        a\  %de = shufflevector <2 x i64> %cd, <2 x i64> %ef, <2 x i32> <i32 1, i32 2>
        a\  %half = call <2 x i64> @llvm.aarch64.crypto.sha512h(<2 x i64> %sum, <2 x i64> %fg, <2 x i64> %de)
        a\  %next.ef = add <2 x i64> %cd, %half
        a\  %next.ab = call <2 x i64> @llvm.aarch64.crypto.sha512h2(<2 x i64> %half, <2 x i64> %cd, <2 x i64> %ab)
        a\  %to.cd = getelementptr i8, ptr %a0, i64 16
        a\  %to.ef = getelementptr i8, ptr %a0, i64 32
        a\  %to.gh = getelementptr i8, ptr %a0, i64 48
        a\  store <2 x i64> %next.ab, ptr %a0, align 8
        a\  store <2 x i64> %ab, ptr %to.cd, align 8
        a\  store <2 x i64> %next.ef, ptr %to.ef, align 8
        a\  store <2 x i64> %ef, ptr %to.gh, align 8
        a\  ret void
        b
    }
    /^\}/b
    d
}
/^define .*@"slh_lanes::instructions::next_pair"\(ptr noundef %a0, ptr noundef %a1, ptr noundef %a2, ptr noundef %a3, ptr noundef %a4\) /,/^\}/ {
    /^define /{
        a\start:
        a\  %w0 = load <2 x i64>, ptr %a1, align 8
        a\  %w2 = load <2 x i64>, ptr %a2, align 8
        a\  %w9 = load <2 x i64>, ptr %a3, align 8
        a\  %w14 = load <2 x i64>, ptr %a4, align 8
        a\  %half = call <2 x i64> @llvm.aarch64.crypto.sha512su0(<2 x i64> %w0, <2 x i64> %w2)
        a\  %next = call <2 x i64> @llvm.aarch64.crypto.sha512su1(<2 x i64> %half, <2 x i64> %w14, <2 x i64> %w9)
        a\  store <2 x i64> %next, ptr %a0, align 8
        a\  ret void
        b
    }
    /^\}/b
    d
}
$ a\declare <2 x i64> @llvm.aarch64.crypto.sha512h(<2 x i64>, <2 x i64>, <2 x i64>)
$ a\declare <2 x i64> @llvm.aarch64.crypto.sha512h2(<2 x i64>, <2 x i64>, <2 x i64>)
$ a\declare <2 x i64> @llvm.aarch64.crypto.sha512su0(<2 x i64>, <2 x i64>)
$ a\declare <2 x i64> @llvm.aarch64.crypto.sha512su1(<2 x i64>, <2 x i64>, <2 x i64>)
