// Made by tools/plain_rust.py from crates/slh_core/src/random.rt.
//! Key generation from a source of random bytes (FIPS 205, section 10.1).

use crate::slh_core::fault::KeygenFault;
use crate::slh_core::generation::keygen_internal;
use crate::slh_core::secret_key::SecretKey;
use rand_core::RngCore;
use crate::slh_params::{Node, ParamSet, node_of};
use thiserror::Error;

/// A source of random bytes failed.
#[derive(Debug, Error)]
#[error("the source of random bytes failed")]
pub struct SourceFault;

/// A source of random bytes, which may fail.
pub trait RandomBytes {
    /// Fills `out` with random bytes. After a failure it holds any bytes.
    fn draw(&mut self, out: &mut [u8]) -> Result<(), SourceFault>;
}

/// The bytes of a random number generator, which never fails.
pub struct FromRng<R> {
    pub rng: R,
}

impl<R: RngCore> RandomBytes for FromRng<R> {
    fn draw(&mut self, out: &mut [u8]) -> Result<(), SourceFault> {
        self.rng.fill_bytes(out);
        Ok(())
    }
}

/// The secret key of three draws: SK.seed, SK.prf and PK.seed, n bytes each (FIPS 205, Algorithm 21).
/// Refused at the first draw that fails, which is then the last one made.
pub fn keygen<S: RandomBytes>(set: ParamSet, source: &mut S) -> Result<SecretKey, KeygenFault> {
    let sk_seed = draw_seed(set, source)?;
    let sk_prf = draw_seed(set, source)?;
    let pk_seed = draw_seed(set, source)?;
    Ok(keygen_internal(set, sk_seed.as_slice(), sk_prf.as_slice(), pk_seed.as_slice()))
}

/// Draws n bytes.
fn draw_seed<S: RandomBytes>(set: ParamSet, source: &mut S) -> Result<Node, KeygenFault> {
    let n = set.n();
    let mut buffer = [0; 32];
    let seed = &mut buffer[..n];
    match source.draw(seed) {
        Ok(()) => Ok(node_of(seed)),
        Err(SourceFault) => Err(KeygenFault::RandomFailed),
    }
}
