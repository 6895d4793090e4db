// Made by tools/plain_rust.py from crates/slh_core/src/eight.rt.
//! Eight signatures, verified side by side (FIPS 205, section 9.3).

use crate::slh_core::comparing::are_same;
use crate::slh_core::digest_parts::{DigestIndices, MOST_DIGEST_LEN, digest_indices};
use crate::slh_core::layout::fors_sig_len;
use crate::slh_core::public_key::PublicKey;
use crate::slh_core::verifying::verify_internal;
use crate::slh_few::{HashContext, HtSignature, ht_roots_from_sigs};
use crate::slh_hash::h_msg;
use crate::slh_params::{Node, ParamSet};
use crate::slh_tree::Leaves;

/// A signature with its key, and with the message in parts: any bytes.
#[derive(Clone, Copy)]
pub struct SignedParts<'a> {
    /// The key that is to have signed.
    pub pk: &'a PublicKey,
    /// The parts which, put end to end, are the message.
    pub parts: [&'a [u8]; 4],
    /// The signature.
    pub sig: &'a [u8],
}

/// Whether each of eight signatures is valid for its parts put end to end, as `verify_internal` says (FIPS 205,
/// Algorithm 20). If all keys are of one set, and all signatures of its length, T and H of the eight hypertree
/// signatures are hashed side by side, one in each SIMD lane.
pub fn verify_eight(items: &[SignedParts; 8]) -> [bool; 8] {
    let set = items[0].pk.set();
    if are_of_set(set, items) { verify_side_by_side(set, items) } else { verify_in_turn(items) }
}

/// Whether all keys are of this set, and all signatures of its length.
fn are_of_set(set: ParamSet, items: &[SignedParts; 8]) -> bool {
    for j in 0..8 {
        if items[j].pk.set() != set || items[j].sig.len() != set.sig_len() {
            return false;
        }
    }
    true
}

/// The hypertree's part of a signature: the FORS public key that it signs, the leaf that signs, and its signature.
struct HtPart<'a> {
    context: HashContext<'a>,
    at: DigestIndices,
    pk_fors: Node,
    sig_ht: &'a [u8],
}

impl<'a> HtPart<'a> {
    /// The hypertree's part, after the FORS signature of a digest is verified (Algorithm 20, lines 9 to 16).
    fn of_digest(pk: &'a PublicKey, digest: &[u8], sig_fors: &[u8], sig_ht: &'a [u8]) -> Self {
        let set = pk.set();
        let context = HashContext::new(set, pk.pk_seed());
        let md = &digest[..set.md_len()];
        let at = digest_indices(set, digest);
        let pk_fors = context.fors_pk_from_sig(at.idx_tree, at.idx_leaf, md, sig_fors);
        HtPart { context, at, pk_fors, sig_ht }
    }

    /// The hypertree's part of a signature (Algorithm 20, lines 4 to 16).
    fn of(item: &SignedParts<'a>) -> Self {
        let pk = item.pk;
        let set = pk.set();
        let (r, rest) = item.sig.split_at(set.n());
        let (sig_fors, sig_ht) = rest.split_at(fors_sig_len(set));
        let mut buffer = [0; MOST_DIGEST_LEN];
        let digest = &mut buffer[..set.m()];
        h_msg(set, r, pk.pk_seed(), pk.pk_root(), &item.parts, digest);
        HtPart::of_digest(pk, digest, sig_fors, sig_ht)
    }

    /// The part as `ht_roots_from_sigs` takes it.
    fn signature(&self) -> HtSignature<'_, 'a> {
        HtSignature {
            context: &self.context,
            idx_tree: self.at.idx_tree,
            idx_leaf: self.at.idx_leaf,
            msg: &self.pk_fors,
            sig: self.sig_ht,
        }
    }
}

/// The hypertree signatures of eight parts.
fn signatures<'p, 'a>(parts: &'p [HtPart<'a>]) -> [HtSignature<'p, 'a>; 8] {
    [
        parts[0].signature(),
        parts[1].signature(),
        parts[2].signature(),
        parts[3].signature(),
        parts[4].signature(),
        parts[5].signature(),
        parts[6].signature(),
        parts[7].signature(),
    ]
}

/// Whether each root is that of the item's key.
fn verdicts(items: &[SignedParts; 8], roots: &Leaves) -> [bool; 8] {
    let mut valid = [false; 8];
    for j in 0..8 {
        valid[j] = are_same(roots[j].as_slice(), items[j].pk.pk_root());
    }
    valid
}

/// The hypertree's parts of eight signatures.
fn parts_of<'a>(items: &[SignedParts<'a>; 8]) -> [HtPart<'a>; 8] {
    [
        HtPart::of(&items[0]),
        HtPart::of(&items[1]),
        HtPart::of(&items[2]),
        HtPart::of(&items[3]),
        HtPart::of(&items[4]),
        HtPart::of(&items[5]),
        HtPart::of(&items[6]),
        HtPart::of(&items[7]),
    ]
}

/// The verdicts, with the hypertree signatures side by side.
fn verify_side_by_side(set: ParamSet, items: &[SignedParts; 8]) -> [bool; 8] {
    let parts = parts_of(items);
    verdicts(items, &ht_roots_from_sigs(set, &signatures(&parts)))
}

/// The verdicts, one after another.
fn verify_in_turn(items: &[SignedParts; 8]) -> [bool; 8] {
    let mut valid = [false; 8];
    for j in 0..8 {
        let item = &items[j];
        valid[j] = verify_internal(&item.parts, item.sig, item.pk);
    }
    valid
}
