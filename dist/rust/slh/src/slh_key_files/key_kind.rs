// Made by tools/plain_rust.py from crates/slh_key_files/src/key_kind.rt.
//! The kinds and versions of key files.

use crate::slh_params::ParamSet;

/// Which key a file holds.
#[derive(Clone, Copy, Debug, PartialEq, Eq)]
pub enum KeyKind {
    Public,
    Secret,
}

/// The version of a key file. A file of version 1 has a key of one of the standard's sets.
#[derive(Clone, Copy, Debug, PartialEq, Eq)]
pub(crate) enum Version {
    One,
    Two,
}

impl Version {
    /// Whether a file of this version can have a key of this set.
    pub(crate) fn allows(self, set: ParamSet) -> bool {
        match self {
            Version::One => set.is_fips_205(),
            Version::Two => true,
        }
    }
}

impl KeyKind {
    /// The first line of a file of this kind, without its line feed.
    pub(crate) fn first_line(self, version: Version) -> &'static str {
        match (self, version) {
            (KeyKind::Public, Version::One) => "slh-dsa-public 1",
            (KeyKind::Public, Version::Two) => "slh-dsa-public 2",
            (KeyKind::Secret, Version::One) => "slh-dsa-secret 1",
            (KeyKind::Secret, Version::Two) => "slh-dsa-secret 2",
        }
    }

    /// The version that the first line of a file of this kind tells.
    pub(crate) fn version_of(self, line: &[u8]) -> Option<Version> {
        if line == self.first_line(Version::One).as_bytes() {
            Some(Version::One)
        } else if line == self.first_line(Version::Two).as_bytes() {
            Some(Version::Two)
        } else {
            None
        }
    }

    /// The length of a key of this kind in bytes.
    pub fn key_len(self, set: ParamSet) -> usize {
        match self {
            KeyKind::Public => set.pk_len(),
            KeyKind::Secret => set.sk_len(),
        }
    }
}
