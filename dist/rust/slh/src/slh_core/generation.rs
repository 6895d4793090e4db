// Made by tools/plain_rust.py from crates/slh_core/src/generation.rt.
//! Key generation from seeds (FIPS 205, section 9.1).

use crate::slh_core::secret_key::SecretKey;
use crate::slh_few::{Seeds, xmss_node};
use crate::slh_params::{Node, ParamSet};

/// The root of the one tree of the top layer.
fn top_root(seeds: &Seeds) -> Node {
    let layer = seeds.set.d() - 1;
    xmss_node(seeds, layer as u8, 0, seeds.set.hp(), 0)
}

/// The secret key of three seeds of n bytes each (FIPS 205, Algorithm 18).
pub fn keygen_internal(set: ParamSet, sk_seed: &[u8], sk_prf: &[u8], pk_seed: &[u8]) -> SecretKey {
    let seeds = Seeds { set, sk_seed, pk_seed };
    SecretKey::from_parts(set, sk_seed, sk_prf, pk_seed, &top_root(&seeds))
}

/// Whether PK.root is the root that the key's seeds give.
pub fn check_pair(sk: &SecretKey) -> bool {
    let seeds = Seeds { set: sk.set(), sk_seed: sk.sk_seed(), pk_seed: sk.pk_seed() };
    top_root(&seeds).as_slice() == sk.pk_root()
}
