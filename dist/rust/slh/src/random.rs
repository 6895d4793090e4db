//! Random bytes of the system.

use std::io;

/// Fills a slice with fresh random bytes of the system.
pub(crate) fn fill(bytes: &mut [u8]) -> io::Result<()> {
    getrandom::getrandom(bytes).map_err(io::Error::from)
}
