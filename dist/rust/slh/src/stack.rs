//! The stack that calls leave behind.

/// How much of the stack is overwritten. In builds that are optimised no call takes more (`tests/stack.rs`).
#[cfg(feature = "std")]
const DEPTH: usize = 96 * 1024;

/// Makes a call, and overwrites the stack that it has used. Without `std` the stack stays as it is: it may be shorter.
pub(crate) fn apart<T>(call: impl FnOnce() -> T) -> T {
    let value = in_a_frame(call);
    #[cfg(feature = "std")]
    overwrite();
    value
}

/// The call has a frame of its own, below that of the caller.
#[inline(never)]
fn in_a_frame<T>(call: impl FnOnce() -> T) -> T {
    call()
}

/// Takes the stack where the call had it, and fills it with zeros.
#[cfg(feature = "std")]
#[inline(never)]
fn overwrite() {
    let mut bytes = [0u8; DEPTH];
    // The compiler has to have the zeros in memory for code of which it knows nothing.
    core::hint::black_box(&mut bytes);
}
