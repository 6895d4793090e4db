# Exchanges the bodies of the two functions for SHA-256 of crates/slh_lanes/src/instructions.rt for ARM's SHA-256
# instructions, for tools/clang.sh: LLVM's text in, the same out. `four_rounds` gets a state of two vectors and four sums
# of a constant and a word, `next_words` sixteen words. Both write their result to the first pointer.
# tests/test_sha_instructions.py compares the new bodies with the proved ones.
/^define .*@"slh_lanes::instructions::four_rounds"\(ptr noundef %a0, ptr noundef %a1, ptr noundef %a2\) /,/^\}/ {
    /^define /{
        a\start:
        a\  %abcd = load <4 x i32>, ptr %a1, align 4
        a\  %second = getelementptr i8, ptr %a1, i64 16
        a\  %efgh = load <4 x i32>, ptr %second, align 4
        a\  %x = load <4 x i32>, ptr %a2, align 4
        a\  %low = call <4 x i32> @llvm.aarch64.crypto.sha256h(<4 x i32> %abcd, <4 x i32> %efgh, <4 x i32> %x)
        a\  %high = call <4 x i32> @llvm.aarch64.crypto.sha256h2(<4 x i32> %efgh, <4 x i32> %abcd, <4 x i32> %x)
        a\  store <4 x i32> %low, ptr %a0, align 4
        a\  %upper = getelementptr i8, ptr %a0, i64 16
        a\  store <4 x i32> %high, ptr %upper, align 4
        a\  ret void
        b
    }
    /^\}/b
    d
}
/^define .*@"slh_lanes::instructions::next_words"\(ptr noundef %a0, ptr noundef %a1, ptr noundef %a2, ptr noundef %a3, ptr noundef %a4\) /,/^\}/ {
    /^define /{
        a\start:
        a\  %w0 = load <4 x i32>, ptr %a1, align 4
        a\  %w1 = load <4 x i32>, ptr %a2, align 4
        a\  %w2 = load <4 x i32>, ptr %a3, align 4
        a\  %w3 = load <4 x i32>, ptr %a4, align 4
        a\  %half = call <4 x i32> @llvm.aarch64.crypto.sha256su0(<4 x i32> %w0, <4 x i32> %w1)
        a\  %next = call <4 x i32> @llvm.aarch64.crypto.sha256su1(<4 x i32> %half, <4 x i32> %w2, <4 x i32> %w3)
        a\  store <4 x i32> %next, ptr %a0, align 4
        a\  ret void
        b
    }
    /^\}/b
    d
}
$ a\declare <4 x i32> @llvm.aarch64.crypto.sha256h(<4 x i32>, <4 x i32>, <4 x i32>)
$ a\declare <4 x i32> @llvm.aarch64.crypto.sha256h2(<4 x i32>, <4 x i32>, <4 x i32>)
$ a\declare <4 x i32> @llvm.aarch64.crypto.sha256su0(<4 x i32>, <4 x i32>)
$ a\declare <4 x i32> @llvm.aarch64.crypto.sha256su1(<4 x i32>, <4 x i32>, <4 x i32>)
