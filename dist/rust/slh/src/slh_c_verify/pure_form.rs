// Made by tools/plain_rust.py from crates/slh_c_verify/src/pure_form.rt.
//! The export that verifies a signature of a message (FIPS 205, section 10.3, Algorithm 24).

use crate::slh_c_verify::keys::public_key;
use crate::slh_c_verify::numbers::set_of;
use crate::slh_c_verify::refusal::{DONE, INVALID, or_refuse};
use crate::slh_core::verify;

/// Whether the bytes are a valid signature of a message under a context (FIPS 205, Algorithm 24). `pk` has 2n bytes.
/// Invalid if the context has over 255 bytes or the signature not `sig_len`. Refused by `verify_rules`: a number that
/// is not a set's, a key of another length.
pub fn slh_verify(set: u32, pk: &[u8], msg: &[u8], ctx: &[u8], sig: &[u8]) -> u32 {
    let set = or_refuse!(set_of(set));
    let pk = or_refuse!(public_key(set, pk));
    if verify(msg, ctx, sig, &pk) { DONE } else { INVALID }
}
