// Made by tools/plain_rust.py from crates/slh_core/src/comparing.rt.
//! Comparing bytes in a small loop (ours).

/// Whether two slices have the same bytes. All are looked at before the answer. It is never inlined: a compiler that
/// inlines it for a known length makes a branch of each byte, and the calls that compare twice count on that. `==` would
/// be 700 bytes of code for a board.
#[inline(never)]
pub fn are_same(left: &[u8], right: &[u8]) -> bool {
    if left.len() != right.len() {
        return false;
    }
    let mut differences = 0;
    for i in 0..left.len() {
        differences |= left[i] ^ right[i];
    }
    differences == 0
}
