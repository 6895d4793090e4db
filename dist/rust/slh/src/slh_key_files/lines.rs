// Made by tools/plain_rust.py from crates/slh_key_files/src/lines.rt.
//! The lines of a key file.

/// The bytes before the first line feed, and those after it.
pub fn cut_line(bytes: &[u8]) -> Option<(&[u8], &[u8])> {
    let end = line_end(bytes)?;
    Some((&bytes[..end], &bytes[end + 1..]))
}

fn line_end(bytes: &[u8]) -> Option<usize> {
    bytes.iter().position(|byte| *byte == b'\n')
}

/// The same for a line that the end of the bytes may end too.
pub fn last_line(bytes: &[u8]) -> (&[u8], &[u8]) {
    cut_line(bytes).unwrap_or((bytes, &[]))
}
