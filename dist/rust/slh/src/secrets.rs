//! Bytes that are secret.
use alloc::{boxed::Box, vec};
use core::hint;

pub(crate) use crate::sys::erase;

/// Whether both have the same bytes, after all of them were compared. Both have the same length.
pub(crate) fn are_same(one: &[u8], other: &[u8]) -> bool {
    // The compiler may not know the value so far, or it would return at the first byte that differs.
    one.iter().zip(other).fold(0, |all, (a, b)| hint::black_box(all | (a ^ b))) == 0
}

/// Bytes that are overwritten when they are dropped. They never move, so no copy stays behind.
pub(crate) struct Secrets(Box<[u8]>);

impl Secrets {
    /// That many zero bytes.
    pub(crate) fn zeros(len: usize) -> Self {
        Secrets(vec![0; len].into_boxed_slice())
    }

    pub(crate) fn bytes(&self) -> &[u8] {
        &self.0
    }

    pub(crate) fn bytes_mut(&mut self) -> &mut [u8] {
        &mut self.0
    }
}

impl Drop for Secrets {
    fn drop(&mut self) {
        erase(&mut self.0);
    }
}

#[cfg(test)]
mod tests {
    use super::*;

    #[test]
    fn each_byte_is_compared() {
        let one = [7; 64];
        assert!(are_same(&one, &one) && are_same(&[], &[]));
        for at in 0..one.len() {
            let mut other = one;
            other[at] ^= 0x80;
            assert!(!are_same(&one, &other) && !are_same(&other, &one));
        }
    }

    #[test]
    fn each_byte_is_erased() {
        let mut bytes = [7; 64];
        erase(&mut bytes[1..63]);
        assert_eq!((bytes[0], bytes[63], bytes[1..63].iter().max()), (7, 7, Some(&0)));
    }
}
