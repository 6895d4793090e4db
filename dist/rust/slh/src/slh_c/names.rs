// Made by tools/plain_rust.py from crates/slh_c/src/names.rt.
//! The export of the names of refusals (ours).

use crate::slh_c::refusal::{DONE, Refusal};

/// Writes the name of a refusal's number, and zero bytes from there to the end, at least one. Refused, with nothing
/// written, by `name_rules`: a number that is not a refusal's, no room for a zero byte.
pub fn slh_refusal_name(refusal: u32, out: &mut [u8]) -> u32 {
    let Some(refusal) = Refusal::from_number(refusal) else {
        return Refusal::NoSuchRefusal.number();
    };
    let name = refusal.name().as_bytes();
    if name.len() >= out.len() {
        return Refusal::BadOutputLength.number();
    }
    let (front, rest) = out.split_at_mut(name.len());
    front.copy_from_slice(name);
    rest.fill(0);
    DONE
}
