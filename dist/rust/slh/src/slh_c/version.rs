// Made by tools/plain_rust.py from crates/slh_c/src/version.rt.
//! The export of the version (ours).

/// The library's version, that of the file `VERSION`, as one number: 1,000,000 times its first part, 1,000 times its
/// second, and its third.
pub fn slh_version() -> u32 {
    1_000_000
}
