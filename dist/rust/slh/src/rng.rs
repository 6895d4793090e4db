//! Keys and signatures by generators of rand_core.

use std::io;

use crate::{Bytes, Error, Function, Options, ParameterSet, Randomizer, SecretKey, Signature, Signer};
use rand_core::{CryptoRng, RngCore};

/// Fills bytes by a generator.
fn fill(rng: &mut impl RngCore, bytes: &mut [u8]) -> io::Result<()> {
    let failed = |error: rand_core::Error| match error.raw_os_error() {
        Some(number) => io::Error::from_raw_os_error(number),
        None => io::Error::other("the generator failed"),
    };
    rng.try_fill_bytes(bytes).map_err(failed)
}

/// Keys that are made from a generator.
pub trait FromRng: Sized {
    /// Makes a key from 3n bytes of a generator (Algorithm 21). `Error::RandomFailed` if it fails.
    fn from_rng(rng: &mut (impl RngCore + CryptoRng)) -> Result<Self, Error>;
}

impl<P: ParameterSet> FromRng for SecretKey<P> {
    fn from_rng(rng: &mut (impl RngCore + CryptoRng)) -> Result<Self, Error> {
        Self::generate_from(|bytes| fill(rng, bytes))
    }
}

/// Keys and workers that sign with a randomizer of a generator.
pub trait SignWithRng<P: ParameterSet>: Signer<P> {
    /// Signs as [`Signer::sign_with`] does. The randomizer is n bytes of the generator, whatever the options say of it.
    /// `Error::RandomFailed` if the generator fails.
    fn sign_with_rng(
        &self,
        rng: &mut (impl RngCore + CryptoRng),
        message: &[u8],
        options: Options<'_>,
    ) -> Result<Signature<P>, Error> {
        let random = drawn::<P>(rng)?;
        self.sign_with(message, Options { randomizer: Randomizer::Given(random.as_ref()), ..options })
    }

    /// Signs as [`Signer::hash_sign`] does, with a randomizer as in `sign_with_rng`.
    fn hash_sign_with_rng(
        &self,
        rng: &mut (impl RngCore + CryptoRng),
        function: Function,
        message: &[u8],
        options: Options<'_>,
    ) -> Result<Signature<P>, Error> {
        let random = drawn::<P>(rng)?;
        self.hash_sign(function, message, Options { randomizer: Randomizer::Given(random.as_ref()), ..options })
    }
}

impl<P: ParameterSet, S: Signer<P>> SignWithRng<P> for S {}

fn drawn<P: ParameterSet>(rng: &mut impl RngCore) -> Result<P::Seed, Error> {
    let mut seed = P::Seed::ZEROS;
    fill(rng, seed.as_mut()).map_err(Error::RandomFailed)?;
    Ok(seed)
}
