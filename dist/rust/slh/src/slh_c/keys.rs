// Made by tools/plain_rust.py from crates/slh_c/src/keys.rt.
//! Exports for keys: their lengths, key generation (FIPS 205, section 9.1), the public part, and the check of a pair.

use crate::slh_c::numbers::set_of;
use crate::slh_c::refusal::{DONE, INVALID, Refusal, or_refuse};
use crate::slh_c::rules::{self, judge};
use crate::slh_core::{PublicKey, SecretKey, check_pair, keygen_internal};
use crate::slh_params::ParamSet;

/// The public key of these bytes. Refused if they are not 2n.
pub fn public_key(set: ParamSet, pk: &[u8]) -> Result<PublicKey, Refusal> {
    match PublicKey::from_bytes(set, pk) {
        Ok(pk) => Ok(pk),
        Err(_) => Err(Refusal::BadLength),
    }
}

/// The secret key of these bytes. Refused if they are not 4n.
pub fn secret_key(set: ParamSet, sk: &[u8]) -> Result<SecretKey, Refusal> {
    match SecretKey::from_bytes(set, sk) {
        Ok(sk) => Ok(sk),
        Err(_) => Err(Refusal::BadLength),
    }
}

/// Writes the lengths of a set's public keys, secret keys and signatures in bytes, and n. Refused, with nothing
/// written, by `lengths_rules`: if the number is not a set's.
pub fn slh_lengths(set: u32, public: &mut usize, secret: &mut usize, signature: &mut usize, n: &mut usize) -> u32 {
    let set = or_refuse!(set_of(set));
    *public = set.pk_len();
    *secret = set.sk_len();
    *signature = set.sig_len();
    *n = set.n();
    DONE
}

/// Writes the secret key, 4n bytes, of three seeds of n bytes each (FIPS 205, Algorithm 18). Refused, with nothing
/// written, by `keygen_rules`: a number that is not a set's, a seed or an output of another length.
pub fn slh_keygen(set: u32, sk_seed: &[u8], sk_prf: &[u8], pk_seed: &[u8], sk: &mut [u8]) -> u32 {
    let set = or_refuse!(set_of(set));
    or_refuse!(judge(&[
        rules::seed(set, sk_seed),
        rules::seed(set, sk_prf),
        rules::seed(set, pk_seed),
        rules::output(set.sk_len(), sk),
    ]));
    sk.copy_from_slice(keygen_internal(set, sk_seed, sk_prf, pk_seed).bytes());
    DONE
}

/// Writes the public key, 2n bytes, of a secret key of 4n bytes: its second half. Refused, with nothing written, by
/// `public_rules`: a number that is not a set's, a key or an output of another length.
pub fn slh_public(set: u32, sk: &[u8], pk: &mut [u8]) -> u32 {
    let set = or_refuse!(set_of(set));
    let sk = or_refuse!(secret_key(set, sk));
    if pk.len() != set.pk_len() {
        return Refusal::BadOutputLength.number();
    }
    pk.copy_from_slice(sk.public_bytes());
    DONE
}

/// Whether PK.root of a secret key of 4n bytes is the root that its seeds give. Refused by `check_rules`: a number
/// that is not a set's, a key of another length.
pub fn slh_check(set: u32, sk: &[u8]) -> u32 {
    let set = or_refuse!(set_of(set));
    let sk = or_refuse!(secret_key(set, sk));
    if check_pair(&sk) { DONE } else { INVALID }
}
