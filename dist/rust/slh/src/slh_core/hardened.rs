// Made by tools/plain_rust.py from crates/slh_core/src/hardened.rt.
//! Verdicts for boot loaders that a fault in one comparison does not turn (ours).
//!
//! A verdict is the sum of two halves, and each half comes from a comparison of its own with PK.root. If one comparison
//! is turned, then the sum is neither verdict. `tests/glitches.py` skips instructions and clears registers; no other
//! fault is claimed to be harmless.

use crate::slh_core::comparing::are_same;
use crate::slh_core::formatted_message::{FormattedMessage, MOST_CONTEXT_LEN};
use crate::slh_core::message_digest::MessageDigest;
use crate::slh_core::public_key::PublicKey;
use crate::slh_core::verifying::root_of_signature;
use crate::slh_params::Node;

/// The verdict on a valid signature. It differs from `HARDENED_INVALID` in 18 bits, and from a sum of halves that
/// disagree in at least 12.
pub const HARDENED_VALID: u32 = 0x79d6_17a4;

/// The verdict on all other bytes.
pub const HARDENED_INVALID: u32 = 0x7c91_d87f;

/// The halves of the verdicts.
const FIRST_VALID: u32 = 0x21e7_9b36;

const FIRST_INVALID: u32 = 0x4f3d_01ed;

const SECOND_VALID: u32 = 0x57ee_7c6e;

const SECOND_INVALID: u32 = 0x2d54_d692;

/// Whether a signature that gave this root passes. It is never inlined, so that a compiler cannot answer once for both.
#[inline(never)]
fn passes(root: &Node, ctx: &[u8], sig: &[u8], pk: &PublicKey) -> bool {
    ctx.len() <= MOST_CONTEXT_LEN && sig.len() == pk.set().sig_len() && are_same(root.as_slice(), pk.pk_root())
}

/// The result of `passes`, computed a second time: the same comparisons, with their sides and their order exchanged.
#[inline(never)]
fn passes_again(root: &Node, ctx: &[u8], sig: &[u8], pk: &PublicKey) -> bool {
    are_same(pk.pk_root(), root.as_slice()) && pk.set().sig_len() == sig.len() && ctx.len() <= MOST_CONTEXT_LEN
}

/// The verdict of two comparisons: the sum of their halves. If they disagree, it is neither verdict.
fn verdict_of(first: bool, second: bool) -> u32 {
    let first = if first { FIRST_VALID } else { FIRST_INVALID };
    let second = if second { SECOND_VALID } else { SECOND_INVALID };
    first + second
}

/// The verdict on a signature of the parts put end to end, which are M' under a context.
fn hardened(parts: &[&[u8]], ctx: &[u8], sig: &[u8], pk: &PublicKey) -> u32 {
    if sig.len() != pk.set().sig_len() {
        return HARDENED_INVALID;
    }
    let root = root_of_signature(parts, sig, pk);
    verdict_of(passes(&root, ctx, sig, pk), passes_again(&root, ctx, sig, pk))
}

/// The hardened verdict on a signature of a message under a context: `HARDENED_VALID` if and only if `verify` is true.
pub fn verify_hardened(msg: &[u8], ctx: &[u8], sig: &[u8], pk: &PublicKey) -> u32 {
    match FormattedMessage::of_message(msg, ctx) {
        Some(message) => hardened(&message.parts(), ctx, sig, pk),
        None => HARDENED_INVALID,
    }
}

/// The hardened verdict on a signature of a message that has this digest, under a context: `HARDENED_VALID` if and only
/// if `hash_verify_digest` is true.
pub fn hash_verify_digest_hardened(digest: &MessageDigest, ctx: &[u8], sig: &[u8], pk: &PublicKey) -> u32 {
    match FormattedMessage::of_digest(digest, ctx) {
        Some(message) => hardened(&message.parts(), ctx, sig, pk),
        None => HARDENED_INVALID,
    }
}
