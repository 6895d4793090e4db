//! Key files (docs/FORMATS.md, "Key file"), which the proved code reads and writes.
use std::{
    fs::{self, OpenOptions},
    io::{self, Read, Write},
    path::Path,
};

#[cfg(unix)]
use std::os::unix::fs::OpenOptionsExt;

use crate::{
    Error, Refusal,
    call::certainly_done,
    secrets::Secrets,
    sets::{Kind, NAMES, ParameterSet},
    sys,
};

/// More bytes than a key file of one of the six sets has. Of a longer file the first fault depends on these bytes and
/// on the first one after them that is not a hexadecimal digit.
const MOST: usize = 512;

/// Where lines 2 and 3 begin, in a file of one of the six sets.
const NAME: usize = 17;
const DIGITS: usize = 35;

/// A key file without a fault. Its bytes are overwritten when it is dropped.
pub(crate) struct KeyFile {
    key: Secrets,
    /// The name of the key's set.
    pub(crate) set: &'static str,
}

impl KeyFile {
    /// Writes the key's bytes, if the key is of this set.
    pub(crate) fn decode(&self, set: &'static str, out: &mut [u8]) -> Result<(), Error> {
        if self.set != set {
            return Err(Error::OtherSet { expected: set, given: self.set });
        }
        out.copy_from_slice(&self.key.bytes()[..out.len()]);
        Ok(())
    }
}

pub(crate) fn load(path: &Path, kind: Kind) -> Result<KeyFile, Error> {
    read(fs::File::open(path).map_err(Error::ReadFailed)?, kind)
}

pub(crate) fn read(reader: impl Read, kind: Kind) -> Result<KeyFile, Error> {
    let (front, len) = front(reader).map_err(Error::ReadFailed)?;
    Ok(judged(&front.bytes()[..len], kind)?)
}

/// Reads a file as far as its key or its first fault depends on it. Returns the bytes and their number.
fn front(mut reader: impl Read) -> io::Result<(Secrets, usize)> {
    let (mut front, mut part, mut len) = (Secrets::zeros(MOST + 1), Secrets::zeros(MOST), 0);
    while len <= MOST {
        let count = match reader.read(part.bytes_mut()) {
            Ok(0) => break,
            Ok(count) => count,
            Err(error) if error.kind() == io::ErrorKind::Interrupted => continue,
            Err(error) => return Err(error),
        };
        len += pushed(&mut front.bytes_mut()[len..], &part.bytes()[..count]);
    }
    Ok((front, len))
}

/// Writes the next bytes of a file into the rest of its front, and returns their number.
fn pushed(rest: &mut [u8], part: &[u8]) -> usize {
    let (near, far) = part.split_at(part.len().min(rest.len() - 1));
    rest[..near.len()].copy_from_slice(near);
    match far.iter().find(|byte| !byte.is_ascii_hexdigit()) {
        Some(byte) => {
            rest[near.len()] = *byte;
            near.len() + 1
        }
        None => near.len(),
    }
}

/// The key of a file, or the file's first fault.
fn judged(text: &[u8], kind: Kind) -> Result<KeyFile, Refusal> {
    let (mut set, mut of_kind, mut key) = (0, 0, Secrets::zeros(sys::SLH_MAX_SECRET_KEY));
    match sys::key_read(text, &mut set, &mut of_kind, key.bytes_mut()) {
        sys::SLH_DONE if of_kind == kind as u32 => Ok(KeyFile { key, set: NAMES[set as usize - 1].0 }),
        result => Err(refusal(result, text, kind)),
    }
}

/// The refusal of a file that the proved code refuses, or whose key is of the other kind. That code reads files of both
/// kinds, and names the other faults of a set without a number before that set. Here these two come first.
fn refusal(result: u32, text: &[u8], kind: Kind) -> Refusal {
    if result == sys::SLH_NOT_A_KEY_FILE || !text.starts_with(kind.beginning()) {
        return Refusal::NOT_A_KEY_FILE;
    }
    if result == sys::SLH_UNKNOWN_SET || text[NAME..].starts_with(b"custom:") {
        return Refusal::UNKNOWN_SET;
    }
    // Of a longer file the digits were not counted.
    if result != sys::SLH_BAD_KEY_LENGTH || text.len() >= MOST {
        return Refusal::of(result);
    }
    let digits = &text[DIGITS..];
    let given = digits.iter().position(|byte| *byte == b'\n').unwrap_or(digits.len());
    let is = |(name, _): &&(&str, usize)| &text[NAME..DIGITS - 1] == name.as_bytes();
    let n = NAMES.iter().find(is).map_or(0, |(_, n)| *n);
    Refusal::BAD_KEY_LENGTH.of_lengths(kind.digits(n), "digits", given)
}

impl Kind {
    /// The first line of a file without the number of its version.
    fn beginning(self) -> &'static [u8] {
        match self {
            Kind::Public => b"slh-dsa-public ",
            Kind::Secret => b"slh-dsa-secret ",
        }
    }

    /// The digits of a key, of which two are a byte of n, 2n or 4n.
    fn digits(self, n: usize) -> usize {
        match self {
            Kind::Public => 4 * n,
            Kind::Secret => 8 * n,
        }
    }
}

/// Writes the text of a key file of version 2.
pub(crate) fn write<P: ParameterSet>(mut writer: impl Write, kind: Kind, key: &[u8]) -> Result<(), Error> {
    let mut text = Secrets::zeros(sys::SLH_MAX_KEY_FILE);
    certainly_done(sys::key_write(P::NUMBER, kind as u32, key, text.bytes_mut()));
    let len = DIGITS + 2 * key.len() + 1;
    writer.write_all(&text.bytes()[..len]).map_err(Error::WriteFailed)
}

/// Writes a new file.
pub(crate) fn dump<P: ParameterSet>(path: &Path, kind: Kind, key: &[u8]) -> Result<(), Error> {
    let mut file = created(path, kind).map_err(Error::WriteFailed)?;
    whole_or_removed(path, || {
        write::<P>(&mut file, kind, key)?;
        file.sync_all().map_err(Error::WriteFailed)
    })
}

fn created(path: &Path, kind: Kind) -> io::Result<fs::File> {
    let mut options = OpenOptions::new();
    #[cfg(unix)]
    options.mode(if kind == Kind::Secret { 0o600 } else { 0o666 });
    #[cfg(not(unix))]
    let _ = kind; // other systems have no modes
    options.write(true).create_new(true).open(path)
}

/// Removes the file that was just created, if writing it fails.
fn whole_or_removed(path: &Path, write: impl FnOnce() -> Result<(), Error>) -> Result<(), Error> {
    write().map_err(|error| match fs::remove_file(path) {
        Ok(()) => error,
        Err(left) => Error::WriteFailed(left),
    })
}

#[cfg(test)]
mod tests {
    use alloc::format;

    use super::*;

    #[test]
    fn a_part_of_a_file_does_not_stay() {
        let path = std::env::temp_dir().join(format!("slh-part-of-a-key-{}", std::process::id()));
        let failed = || Err(Error::WriteFailed(io::Error::from(io::ErrorKind::WriteZero)));
        created(&path, Kind::Secret).unwrap().write_all(b"slh-dsa-secret 2\n").unwrap();
        assert!(path.exists());
        assert!(matches!(whole_or_removed(&path, failed), Err(Error::WriteFailed(_))));
        assert!(!path.exists());
    }
}
