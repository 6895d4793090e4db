# Exchanges the bodies of the two functions for SHA-256 of crates/slh_lanes/src/instructions.rt for the SHA instructions
# of x86-64, for tools/clang.sh: LLVM's text in, the same out. `four_rounds` gets a state of two vectors and four sums of
# a constant and a word, `next_words` sixteen words. Both write their result to the first pointer. The instructions hold
# a state as a, b, e, f and c, d, g, h, each from the highest word down. tests/test_sha_instructions.py compares the new
# bodies with the proved ones.
/^define .*@"slh_lanes::instructions::four_rounds"\(ptr noundef %a0, ptr noundef %a1, ptr noundef %a2\) /,/^\}/ {
    /^define /{
        a\start:
        a\  %abcd = load <4 x i32>, ptr %a1, align 4
        a\  %second = getelementptr i8, ptr %a1, i64 16
        a\  %efgh = load <4 x i32>, ptr %second, align 4
        a\  %x = load <4 x i32>, ptr %a2, align 4
        a\  %abef = shufflevector <4 x i32> %abcd, <4 x i32> %efgh, <4 x i32> <i32 5, i32 4, i32 1, i32 0>
        a\  %cdgh = shufflevector <4 x i32> %abcd, <4 x i32> %efgh, <4 x i32> <i32 7, i32 6, i32 3, i32 2>
        a\  %y = shufflevector <4 x i32> %x, <4 x i32> poison, <4 x i32> <i32 2, i32 3, i32 poison, i32 poison>
        a\  %c1 = call <4 x i32> @llvm.x86.sha256rnds2(<4 x i32> %cdgh, <4 x i32> %abef, <4 x i32> %x)
        a\  %a3 = call <4 x i32> @llvm.x86.sha256rnds2(<4 x i32> %abef, <4 x i32> %c1, <4 x i32> %y)
        a\  %low = shufflevector <4 x i32> %a3, <4 x i32> %c1, <4 x i32> <i32 3, i32 2, i32 7, i32 6>
        a\  %high = shufflevector <4 x i32> %a3, <4 x i32> %c1, <4 x i32> <i32 1, i32 0, i32 5, i32 4>
        a\  store <4 x i32> %low, ptr %a0, align 4
        a\  %upper = getelementptr i8, ptr %a0, i64 16
        a\  store <4 x i32> %high, ptr %upper, align 4
        a\  ret void
        b
    }
    /^\}/b
    d
}
/^define .*@"slh_lanes::instructions::next_words"\(ptr noundef %a0, ptr noundef %a1, ptr noundef %a2, ptr noundef %a3, ptr noundef %a4\) /,/^\}/ {
    /^define /{
        a\start:
        a\  %w0 = load <4 x i32>, ptr %a1, align 4
        a\  %w1 = load <4 x i32>, ptr %a2, align 4
        a\  %w2 = load <4 x i32>, ptr %a3, align 4
        a\  %w3 = load <4 x i32>, ptr %a4, align 4
        a\  %half = call <4 x i32> @llvm.x86.sha256msg1(<4 x i32> %w0, <4 x i32> %w1)
        a\  %seven = shufflevector <4 x i32> %w2, <4 x i32> %w3, <4 x i32> <i32 1, i32 2, i32 3, i32 4>
        a\  %most = add <4 x i32> %half, %seven
        a\  %next = call <4 x i32> @llvm.x86.sha256msg2(<4 x i32> %most, <4 x i32> %w3)
        a\  store <4 x i32> %next, ptr %a0, align 4
        a\  ret void
        b
    }
    /^\}/b
    d
}
$ a\declare <4 x i32> @llvm.x86.sha256rnds2(<4 x i32>, <4 x i32>, <4 x i32>)
$ a\declare <4 x i32> @llvm.x86.sha256msg1(<4 x i32>, <4 x i32>)
$ a\declare <4 x i32> @llvm.x86.sha256msg2(<4 x i32>, <4 x i32>)
