// Made by tools/plain_rust.py from crates/slh_hash/src/seeded_hash.rt.
//! F and PRF under one PK.seed (FIPS 205, section 11.2).

use crate::slh_hash::tweakable::{truncated, zeros};
use sha2::{Digest, Sha256};
use crate::slh_params::{Adrs, Node, ParamSet};

/// F and PRF under one PK.seed: SHA-256 after its first block, which PK.seed and zeros fill.
///
/// It is made once within a call that hashes often, so that each hash begins after that block. Contracts
/// see it by the relation `IsSeeded`.
pub struct SeededHash {
    set: ParamSet,
    state: Sha256,
}

impl SeededHash {
    /// The state under this PK.seed of n bytes.
    pub fn new(set: ParamSet, pk_seed: &[u8]) -> Self {
        let mut state = Sha256::new();
        state.update(pk_seed);
        state.update(zeros(64 - set.n()));
        SeededHash { set, state }
    }

    /// The first n bytes of the digest of PK.seed, zeros, the address and the bytes.
    fn digest(&self, adrs: &Adrs, x: &[u8]) -> Node {
        let mut state = self.state.clone();
        state.update(adrs.compressed());
        state.update(x);
        let digest = state.finalize();
        truncated(&digest, self.set.n())
    }

    /// F (FIPS 205, section 11.2): the hash of a node of n bytes at an address.
    pub fn f(&self, adrs: &Adrs, x: &Node) -> Node {
        self.digest(adrs, x.as_slice())
    }

    /// PRF (section 11.2): the secret at an address, from SK.seed of n bytes.
    pub fn prf(&self, sk_seed: &[u8], adrs: &Adrs) -> Node {
        self.digest(adrs, sk_seed)
    }
}
