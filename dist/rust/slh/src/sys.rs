//! What the package takes of the proved code: its numbers and its calls.
use core::ffi::CStr;

pub(crate) use crate::numbers::*;
use crate::slh_c;
#[cfg(any(feature = "std", feature = "pkcs8"))]
use crate::stack::apart;

/// Makes a call with numbers, then with slices that it reads, and last with slices that it writes, by their names. The
/// value is the number that it returns. What the call left on the stack is overwritten.
macro_rules! call {
    ($name:ident($($number:expr),+; $($read:expr),*; $($write:ident),*)) => {
        $crate::stack::apart(|| $crate::sys::$name($($number,)+ $($read,)* $($write,)*))
    };
}
pub(crate) use call;
#[cfg(feature = "std")]
pub(crate) use slh_c::{
    jobs::{slh_hash_sign_start, slh_sign_start},
    joining::slh_sign_join,
};
pub(crate) use slh_c::{
    keys::{slh_check, slh_keygen, slh_public},
    many::{Signed as Item, slh_verify_many as verify_many},
    pre_hash_form::{slh_hash_sign, slh_hash_sign_digest, slh_hash_verify, slh_hash_verify_digest},
    pure_form::{slh_sign, slh_verify},
    self_test::slh_self_test,
    twice::{slh_hash_sign_digest_twice, slh_hash_sign_twice, slh_sign_twice},
};

/// Writes the name of a refusal, and a zero byte.
pub(crate) fn refusal_name(number: u32, name: &mut [u8]) -> u32 {
    slh_c::names::slh_refusal_name(number, name)
}

/// A sentence on a refusal.
pub(crate) fn refusal_text(number: u32) -> &'static CStr {
    crate::refusal_text::refusal_text(number)
}

/// The number of jobs of a signature, and the lengths of its start and its answers. `levels` are those by which XMSS
/// trees and FORS trees are cut.
#[cfg(feature = "std")]
pub(crate) fn sign_jobs(set: u32, levels: [u32; 2], jobs: &mut u32, start: &mut usize, answers: &mut usize) -> u32 {
    slh_c::jobs::slh_sign_jobs(set, levels[0], levels[1], jobs, start, answers)
}

/// Where the answer of a job begins, and its length.
#[cfg(feature = "std")]
pub(crate) fn answer_place(set: u32, levels: [u32; 2], job: u32, at: &mut usize, len: &mut usize) -> u32 {
    slh_c::jobs::slh_answer_place(set, levels[0], levels[1], job, at, len)
}

/// Does a job.
#[cfg(feature = "std")]
pub(crate) fn sign_job(set: u32, levels: [u32; 2], sk: &[u8], start: &[u8], job: u32, answer: &mut [u8]) -> u32 {
    apart(|| slh_c::jobs::slh_sign_job(set, levels[0], levels[1], sk, start, job, answer))
}

/// Reads a key file. Writes its key's set, kind and bytes, with zeros behind them.
#[cfg(feature = "std")]
pub(crate) fn key_read(file: &[u8], set: &mut u32, kind: &mut u32, key: &mut [u8]) -> u32 {
    apart(|| slh_c::key_files::slh_key_read(file, set, kind, key))
}

/// Writes a key file, and zeros behind it.
#[cfg(feature = "std")]
pub(crate) fn key_write(set: u32, kind: u32, key: &[u8], text: &mut [u8]) -> u32 {
    apart(|| slh_c::key_files::slh_key_write(set, kind, key, text))
}

/// Reads a key in DER or PEM. Writes its set, its kind and its bytes, with zeros behind them.
#[cfg(feature = "pkcs8")]
pub(crate) fn pkix_read(is_pem: bool, file: &[u8], set: &mut u32, kind: &mut u32, key: &mut [u8]) -> u32 {
    let call = if is_pem { slh_c::pkix::slh_pem_read } else { slh_c::pkix::slh_der_read };
    apart(|| call(file, set, kind, key))
}

/// Writes a key in DER or PEM, with zeros behind it, and its length.
#[cfg(all(feature = "pkcs8", feature = "std"))]
pub(crate) fn pkix_write(is_pem: bool, set: u32, kind: u32, key: &[u8], len: &mut u32, file: &mut [u8]) -> u32 {
    let call = if is_pem { slh_c::pkix::slh_pem_write } else { slh_c::pkix::slh_der_write };
    apart(|| call(set, kind, key, len, file))
}

/// An item of `verify_many`: a key, a message, a context and a signature.
pub(crate) fn item<'a>(pk: &'a [u8], msg: &'a [u8], ctx: &'a [u8], sig: &'a [u8]) -> Item<'a> {
    Item { pk, msg, ctx, sig }
}

/// Overwrites bytes with zeros, also if the compiler sees that nobody reads them again.
pub(crate) fn erase(bytes: &mut [u8]) {
    #[cfg(feature = "zeroize")]
    zeroize::Zeroize::zeroize(bytes);
    #[cfg(not(feature = "zeroize"))]
    {
        bytes.fill(0);
        // The compiler has to have the zeros in memory for code of which it knows nothing.
        core::hint::black_box(bytes);
    }
}
