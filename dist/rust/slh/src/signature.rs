//! Signatures: bytes of the length that their set has.

use alloc::{boxed::Box, vec};
use core::{fmt, marker::PhantomData};

use crate::{Error, ParameterSet, call::done, secrets::erase};

/// The bytes of a signature, as many as the set's signatures have.
#[derive(Clone, PartialEq, Eq, Hash)]
pub struct Signature<P: ParameterSet> {
    bytes: Box<[u8]>,
    set: PhantomData<P>,
}

impl<P: ParameterSet> Signature<P> {
    /// The length in bytes.
    pub const LEN: usize = P::SIGNATURE;

    /// The bytes.
    pub fn as_bytes(&self) -> &[u8] {
        &self.bytes
    }

    /// The bytes, without a copy.
    pub(crate) fn into_bytes(self) -> Box<[u8]> {
        self.bytes
    }

    /// The signature that a call writes into the room for one.
    pub(crate) fn written(call: impl FnOnce(&mut [u8]) -> u32) -> Result<Self, Error> {
        let mut bytes = vec![0; Self::LEN].into_boxed_slice();
        done(call(&mut bytes))?;
        Ok(Signature { bytes, set: PhantomData })
    }

    /// The signature, if the verdict on it is that it is valid. Else it is erased: it may publish values of one-time
    /// keys that no right signature publishes.
    pub(crate) fn released(mut self, verify: impl FnOnce(&Self) -> Result<(), Error>) -> Result<Self, Error> {
        let verdict = verify(&self);
        judged(&mut self.bytes, verdict).map(|()| self)
    }
}

fn judged(signature: &mut [u8], verdict: Result<(), Error>) -> Result<(), Error> {
    verdict.map_err(|error| {
        erase(signature);
        match error {
            Error::Invalid => Error::Fault,
            other => other,
        }
    })
}

impl<P: ParameterSet> TryFrom<&[u8]> for Signature<P> {
    type Error = Error;

    /// The signature of these bytes. `Error::Invalid` if the set's signatures have another length.
    fn try_from(bytes: &[u8]) -> Result<Self, Error> {
        if bytes.len() == Self::LEN {
            Ok(Signature { bytes: bytes.into(), set: PhantomData })
        } else {
            Err(Error::Invalid)
        }
    }
}

impl<P: ParameterSet> AsRef<[u8]> for Signature<P> {
    fn as_ref(&self) -> &[u8] {
        &self.bytes
    }
}

impl<P: ParameterSet> fmt::Debug for Signature<P> {
    fn fmt(&self, f: &mut fmt::Formatter<'_>) -> fmt::Result {
        write!(f, "Signature({}, {} bytes)", P::NAME, self.bytes.len())
    }
}

#[cfg(test)]
mod tests {
    use super::*;

    #[test]
    fn only_a_valid_signature_stays() {
        let mut bytes = [7; 100];
        judged(&mut bytes, Ok(())).unwrap();
        assert_eq!(bytes, [7; 100]);
        assert!(matches!(judged(&mut bytes, Err(Error::Invalid)), Err(Error::Fault)));
        assert_eq!(bytes, [0; 100]);
    }
}
