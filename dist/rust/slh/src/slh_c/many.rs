// Made by tools/plain_rust.py from crates/slh_c/src/many.rt.
//! The export that verifies many signatures, eight at a time (FIPS 205, sections 9.3 and 10.3).

use crate::slh_c::keys::public_key;
use crate::slh_c::numbers::set_of;
use crate::slh_c::pure_form::slh_verify;
use crate::slh_c::refusal::{DONE, INVALID, Refusal};
use crate::slh_core::{Form, FormattedMessage, PublicKey, SignedParts, verify_eight};
use crate::slh_params::ParamSet;

/// A public key, a message, a context and a signature: any bytes.
#[repr(C)]
#[derive(Clone, Copy)]
pub struct Signed<'a> {
    /// The key that is to have signed.
    pub pk: &'a [u8],
    /// The message.
    pub msg: &'a [u8],
    /// The context.
    pub ctx: &'a [u8],
    /// The signature.
    pub sig: &'a [u8],
}

/// An item as `verify_eight` needs it: its key, M' and its signature.
struct Prepared<'a> {
    pk: PublicKey,
    message: FormattedMessage<'a>,
    sig: &'a [u8],
}

impl<'a> Prepared<'a> {
    /// The key and M' of an item. `None` if its key does not have 2n bytes, or its context over 255.
    fn of(set: ParamSet, item: &Signed<'a>) -> Option<Prepared<'a>> {
        let Ok(pk) = public_key(set, item.pk) else {
            return None;
        };
        let message = Form::Pure.message(item.msg, item.ctx)?;
        let sig = item.sig;
        Some(Prepared { pk, message, sig })
    }

    /// The signature, with M' in parts.
    fn parts(&self) -> SignedParts<'_> {
        SignedParts { pk: &self.pk, parts: self.message.parts(), sig: self.sig }
    }
}

/// Whether each of eight signatures is valid.
fn are_valid(all: &[Prepared; 8]) -> [bool; 8] {
    let [a, b, c, d, e, f, g, h] = all;
    verify_eight(&[a.parts(), b.parts(), c.parts(), d.parts(), e.parts(), f.parts(), g.parts(), h.parts()])
}

/// Whether each of eight items is valid. `None` if a key does not have 2n bytes, or a context over 255.
fn judged(set: ParamSet, items: &[Signed; 8]) -> Option<[bool; 8]> {
    let [a, b, c, d, e, f, g, h] = items;
    let first = Prepared::of(set, a)?;
    let second = Prepared::of(set, b)?;
    let third = Prepared::of(set, c)?;
    let fourth = Prepared::of(set, d)?;
    let fifth = Prepared::of(set, e)?;
    let sixth = Prepared::of(set, f)?;
    let seventh = Prepared::of(set, g)?;
    let eighth = Prepared::of(set, h)?;
    Some(are_valid(&[first, second, third, fourth, fifth, sixth, seventh, eighth]))
}

/// The number of a verdict.
fn number_of(valid: bool) -> u32 {
    if valid { DONE } else { INVALID }
}

/// The numbers of eight verdicts.
fn numbers_of(valid: &[bool; 8]) -> [u32; 8] {
    let mut verdicts = [INVALID; 8];
    for j in 0..8 {
        verdicts[j] = number_of(valid[j]);
    }
    verdicts
}

/// The verdicts on the first eight items. `None` if there are fewer, if a key does not have 2n bytes, or if a context
/// has over 255.
fn verdicts_of_eight(set: u32, of: ParamSet, items: &[Signed]) -> Option<[u32; 8]> {
    let eight = items.first_chunk::<8>()?;
    let valid = judged(of, eight)?;
    Some(numbers_of(&valid))
}

/// Writes the verdicts on eight items from this place on, or the verdict on the one at this place. Returns the place
/// after them.
fn put_next(set: u32, of: ParamSet, items: &[Signed], at: usize, verdicts: &mut [u32]) -> usize {
    match verdicts_of_eight(set, of, &items[at..]) {
        Some(eight) => {
            verdicts[at..at + 8].copy_from_slice(&eight);
            at + 8
        }
        None => {
            let item = items[at];
            verdicts[at] = slh_verify(set, item.pk, item.msg, item.ctx, item.sig);
            at + 1
        }
    }
}

/// Writes the verdict on each item.
fn put_verdicts(set: u32, of: ParamSet, items: &[Signed], verdicts: &mut [u32]) {
    let mut at = 0;
    while at < items.len() {
        at = put_next(set, of, items, at, verdicts);
    }
}

/// The first verdict that is not `DONE`, or `DONE` if all are.
fn first_fault(verdicts: &[u32]) -> u32 {
    for verdict in verdicts {
        if *verdict != DONE {
            return *verdict;
        }
    }
    DONE
}

/// The set of a number, if there is room for as many verdicts as items.
fn set_with_room(set: u32, items: &[Signed], verdicts: &[u32]) -> Result<ParamSet, Refusal> {
    let of = set_of(set)?;
    if verdicts.len() != items.len() {
        return Err(Refusal::BadOutputLength);
    }
    Ok(of)
}

/// Verifies many signatures (FIPS 205, Algorithm 24). Each item has its own key and context. The verdict on an item is
/// the number that `slh_verify` returns for it. Returns the first verdict that is not `DONE`, and `DONE` if all items
/// are valid. Refuses, by `verify_many_rules`, a number that is not a set's, and another number of verdicts than of
/// items. Then it writes the refusal to each verdict, so that none says `DONE`.
pub fn slh_verify_many(set: u32, items: &[Signed], verdicts: &mut [u32]) -> u32 {
    match set_with_room(set, items, verdicts) {
        Ok(of) => {
            put_verdicts(set, of, items, verdicts);
            first_fault(verdicts)
        }
        Err(refusal) => {
            verdicts.fill(refusal.number());
            refusal.number()
        }
    }
}
