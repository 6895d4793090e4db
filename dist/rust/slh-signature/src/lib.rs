#![doc = include_str!("../README.md")]
#![forbid(unsafe_code)]

use signature::{Error, Keypair, SignatureEncoding, Signer, Verifier};
use slh::{ParameterSet, PublicKey, SecretKey};

/// A secret key. It is printed as its set, and overwritten when it is dropped.
#[derive(Debug, PartialEq, Eq)]
pub struct SigningKey<P: ParameterSet>(SecretKey<P>);

/// A public key.
#[derive(Clone, Copy, Debug, PartialEq, Eq, Hash)]
pub struct VerifyingKey<P: ParameterSet>(PublicKey<P>);

/// A signature, whose bytes [`SignatureEncoding`] gives.
#[derive(Clone, Debug, PartialEq, Eq, Hash)]
pub struct Signature<P: ParameterSet>(slh::Signature<P>);

impl<P: ParameterSet> From<SecretKey<P>> for SigningKey<P> {
    fn from(secret: SecretKey<P>) -> Self {
        SigningKey(secret)
    }
}

impl<P: ParameterSet> From<PublicKey<P>> for VerifyingKey<P> {
    fn from(public: PublicKey<P>) -> Self {
        VerifyingKey(public)
    }
}

impl<P: ParameterSet> From<slh::Signature<P>> for Signature<P> {
    fn from(signature: slh::Signature<P>) -> Self {
        Signature(signature)
    }
}

impl<P: ParameterSet> Signer<Signature<P>> for SigningKey<P> {
    /// Signs as [`slh::Signer::sign`] does. The error tells no reason.
    fn try_sign(&self, message: &[u8]) -> Result<Signature<P>, Error> {
        slh::Signer::sign(&self.0, message).map(Signature).map_err(|_| Error::new())
    }
}

impl<P: ParameterSet> Keypair for SigningKey<P> {
    type VerifyingKey = VerifyingKey<P>;

    fn verifying_key(&self) -> VerifyingKey<P> {
        VerifyingKey(self.0.public())
    }
}

impl<P: ParameterSet> Verifier<Signature<P>> for VerifyingKey<P> {
    /// Verifies as [`slh::Verifier::verify`] does. The error tells no reason.
    fn verify(&self, message: &[u8], signature: &Signature<P>) -> Result<(), Error> {
        slh::Verifier::verify(&self.0, message, &signature.0).map_err(|_| Error::new())
    }
}

impl<P: ParameterSet> TryFrom<&[u8]> for Signature<P> {
    type Error = Error;

    /// The signature of these bytes. An error if the set's signatures have another length.
    fn try_from(bytes: &[u8]) -> Result<Self, Error> {
        slh::Signature::try_from(bytes).map(Signature).map_err(|_| Error::new())
    }
}

impl<P: ParameterSet> From<Signature<P>> for Box<[u8]> {
    fn from(signature: Signature<P>) -> Self {
        signature.0.as_bytes().into()
    }
}

impl<P: ParameterSet> SignatureEncoding for Signature<P> {
    type Repr = Box<[u8]>;
}
