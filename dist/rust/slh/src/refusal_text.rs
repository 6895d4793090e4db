// Made by tools/plain_rust.py from c/exports/refusal_text.c.
//! A sentence for each result.

use core::ffi::CStr;

/// A sentence on a result.
pub fn refusal_text(result: u32) -> &'static CStr {
    match result {
        0 => c"done: the output is written, or the key or signature is valid",
        2 => c"the context has more than 255 bytes",
        3 => c"the key does not have the length of the parameter set's keys",
        4 => c"a number of levels is above 8 or above the height of the trees",
        8 => c"the number is not a parameter set's",
        9 => c"the number is not a pre-hash function's",
        10 => c"a seed does not have n bytes",
        11 => c"the first line is not that of a key file, or a key in DER or PEM has another form",
        12 => c"the second line of the key file is not the name of a parameter set",
        13 => c"the third line of the key file has a byte that is no hexadecimal digit",
        14 => c"the third line of the key file has too few or too many digits for a key of the set",
        15 => c"bytes follow the third line of the key file",
        16 => c"the digest does not have the length of its hash function's digests",
        17 => c"the randomizer has neither 0 nor n bytes",
        18 => c"an output does not have the length of the bytes that are written",
        19 => c"the number is not a refusal's",
        20 => c"the answers do not have the length of the answers of all jobs",
        25 => c"the answers of jobs do not fit together: nothing was signed",
        26 => c"the number is not a job's",
        27 => c"the start does not have the length of the parameter set's starts",
        28 => c"the start does not have its tag under this key",
        30 => c"the key or the signature is not valid",
        37 => c"the call got no memory: nothing was written",
        38 => c"two computations of one signature differ, so memory or the processor failed: nothing was signed",
        39 => c"the processor, or the one that a virtual machine shows, is below x86-64-v2",
        40 => c"an answer of the self-test is not the known one: do not use this set on this machine",
        41 => c"the number is not a kind of keys",
        _ => c"this number is no result of the library",
    }
}
