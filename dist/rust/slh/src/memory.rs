//! Vectors and strings whose growth can be refused: the calls of Rattle's own that `slh_key_files` uses, over `alloc`.
//!
//! A call returns `AllocError` if there is no memory, and the value is as it was. Stable Rust has no allocators to
//! choose from, so `Global` is the only one. Bytes are not erased.

extern crate alloc;

use core::marker::PhantomData;
use core::ops::Deref;

/// A source of memory.
pub trait Allocator: Clone {}

/// The memory of the program.
#[derive(Clone, Copy, Debug)]
pub struct Global;

impl Allocator for Global {}

/// There was no memory.
#[derive(Clone, Copy, Debug, PartialEq, Eq)]
pub struct AllocError;

/// A vector.
pub struct Vec<T, A> {
    items: alloc::vec::Vec<T>,
    of: PhantomData<A>,
}

impl<T, A: Allocator> Vec<T, A> {
    /// An empty vector.
    pub fn new_in(_: A) -> Self {
        Vec { items: alloc::vec::Vec::new(), of: PhantomData }
    }

    /// Appends an item.
    pub fn push(&mut self, item: T) -> Result<(), AllocError> {
        self.items.try_reserve(1).map_err(|_| AllocError)?;
        self.items.push(item);
        Ok(())
    }

    /// Appends items.
    pub fn extend_from_slice(&mut self, items: &[T]) -> Result<(), AllocError>
    where
        T: Copy,
    {
        self.items.try_reserve(items.len()).map_err(|_| AllocError)?;
        self.items.extend_from_slice(items);
        Ok(())
    }
}

impl<T, A> Deref for Vec<T, A> {
    type Target = [T];

    fn deref(&self) -> &[T] {
        &self.items
    }
}

/// A string.
pub struct String<A> {
    text: alloc::string::String,
    of: PhantomData<A>,
}

impl<A: Allocator> String<A> {
    /// A string with this text.
    pub fn from_str(_: A, text: &str) -> Result<Self, AllocError> {
        let mut made = String { text: alloc::string::String::new(), of: PhantomData };
        made.push_str(text)?;
        Ok(made)
    }

    /// Appends a text.
    pub fn push_str(&mut self, text: &str) -> Result<(), AllocError> {
        self.text.try_reserve(text.len()).map_err(|_| AllocError)?;
        self.text.push_str(text);
        Ok(())
    }
}

impl<A> String<A> {
    /// The text.
    pub fn as_str(&self) -> &str {
        &self.text
    }
}

/// Hexadecimal digits.
pub mod hex {
    use super::{AllocError, Allocator, String};

    /// The digits are odd in number, one is none, or they are no room full.
    #[derive(Clone, Copy, Debug, PartialEq, Eq)]
    pub struct NotHex;

    /// The digit of a value below 16, in lower case. No branch and no address depends on it.
    fn digit(value: u8) -> char {
        char::from(b'0' + value + (9u8.wrapping_sub(value) >> 7) * 39)
    }

    /// The value of a digit of either case.
    fn value(digit: u8) -> Option<u8> {
        digit.is_ascii_hexdigit().then_some((digit & 15) + 9 * (digit >> 6))
    }

    /// Two digits for each byte, in lower case.
    pub fn encode<A: Allocator>(alloc: A, bytes: &[u8]) -> Result<String<A>, AllocError> {
        let mut made = String::from_str(alloc, "")?;
        made.text.try_reserve(2 * bytes.len()).map_err(|_| AllocError)?;
        for byte in bytes {
            made.text.extend([digit(byte >> 4), digit(byte & 15)]);
        }
        Ok(made)
    }

    /// Writes the bytes that the digits spell, which fill `bytes`.
    pub fn decode_to_slice(digits: &[u8], bytes: &mut [u8]) -> Result<(), NotHex> {
        if digits.len() != 2 * bytes.len() {
            return Err(NotHex);
        }
        for (byte, pair) in bytes.iter_mut().zip(digits.chunks_exact(2)) {
            *byte = value(pair[0]).ok_or(NotHex)? << 4 | value(pair[1]).ok_or(NotHex)?;
        }
        Ok(())
    }
}
