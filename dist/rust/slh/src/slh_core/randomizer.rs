// Made by tools/plain_rust.py from crates/slh_core/src/randomizer.rt.
//! The choice between deterministic and randomized signatures (FIPS 205, section 9.2).

/// What makes a signature's randomizer R vary (FIPS 205, section 9.2).
#[derive(Clone, Copy)]
pub enum Randomizer<'a> {
    /// Nothing: PK.seed stands for it, so that equal messages have equal signatures.
    Deterministic,
    /// These n bytes.
    Given(&'a [u8]),
}

impl<'a> Randomizer<'a> {
    /// opt_rand of Algorithm 19, under a public key's PK.seed.
    pub fn opt_rand(self, pk_seed: &'a [u8]) -> &'a [u8] {
        match self {
            Randomizer::Deterministic => pk_seed,
            Randomizer::Given(bytes) => bytes,
        }
    }
}
