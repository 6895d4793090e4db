// Made by tools/plain_rust.py from crates/slh_width/src/lib.rt.
//! How many lanes a build's vectors have. No contract states it, so all proofs hold for each width. `tools/clang.sh`
//! writes the numbers of a kind of processor into the proved module before it is compiled.

/// The number of words of one vector, one word in each lane.
#[derive(Clone, Copy)]
pub enum Width {
    One,
    Four,
    Eight,
    Sixteen,
    /// One message after another, by the SHA instructions of the processor.
    Instructions,
}

/// The widths of the vectors in which blocks are hashed side by side.
#[derive(Clone, Copy)]
pub struct Widths {
    /// For words of 32 bits, as of SHA-256.
    pub short: Width,
    /// For words of 64 bits, as of SHA-512. Sixteen means eight here.
    pub long: Width,
}

/// The widths of this build.
#[inline(always)]
pub fn build_widths() -> Widths {
    Widths { short: crate::levels::short(), long: crate::levels::long() }
}
