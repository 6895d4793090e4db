# Gives the functions of a proved module attributes for small code, for tools/clang.sh: LLVM's text in, the same out.
#
# A function is compiled for size, and what rattle marked to be inlined still is. The exceptions were measured
# (docs/MACHINES.md). The steps of SHA-512, which fill 11 KB if they are inlined, are called. So are five functions
# whose buffers would fill the frame of their caller while deeper calls run: for the digest of a message, for H_msg, for
# the root, and for the digits. The compression of SHA-256 and the hash of a chain's step, in which a verification
# spends its time, stay as they are.
/^define .*@"(sha2::block512::(first_)?four_steps|slh_hash::message::h_msg|slh_few::wots_digits::digits)"\(/ b called
/^define .*@"slh_core::(pre_hash_form::pre_hash_digest|message_digest::MessageDigest::of|verifying::root_of_parts)"\(/ {
    :called
    s/ #[0-9]+ \{$/ nounwind noinline optsize {/
    b
}
/^define .*@"(sha2::block256::compress|slh_hash::seeded_hash::SeededHash::(f|digest))"\(/ b
/^define / s/ (#[0-9]+) \{$/ \1 optsize {/
