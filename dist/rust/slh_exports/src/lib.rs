//! The calls of `slh.h` over the crate `slh`, for C.
//!
//! `slh_verify_many` is in `many`.
//!
//! The headers state the duties of a caller: each pointer is to as many bytes as its length says, and no output shares
//! bytes with another argument. A null pointer with the length 0 is no bytes. Unlike the released library this one
//! clears neither the stack nor registers after a call. It has the code of one level, so `slh_level` returns 0.
#![no_std]
#![allow(clippy::missing_safety_doc, clippy::too_many_arguments)]

#[macro_use]
mod calls;
mod many;

use calls::{input, output};
use core::ffi::c_char;
use slh::slh_c;

calls! { slh_c:
    keys::slh_lengths(set: number, pk: place usize, sk: place usize, sig: place usize, n: place usize,);
    keys::slh_keygen(set: number, sk_seed: input, sk_prf: input, pk_seed: input, sk: output,);
    keys::slh_public(set: number, sk: input, pk: output,);
    keys::slh_check(set: number, sk: input,);
    pure_form::slh_sign(set: number, sk: input, msg: input, ctx: input, random: input, sig: output,);
    pure_form::slh_verify(set: number, pk: input, msg: input, ctx: input, sig: input,);
    pre_hash_form::slh_hash_sign(set: number, function: number, sk: input, msg: input, ctx: input, random: input,
        sig: output,);
    pre_hash_form::slh_hash_sign_digest(set: number, function: number, sk: input, digest: input, ctx: input,
        random: input, sig: output,);
    pre_hash_form::slh_hash_verify(set: number, function: number, pk: input, msg: input, ctx: input, sig: input,);
    pre_hash_form::slh_hash_verify_digest(set: number, function: number, pk: input, digest: input, ctx: input,
        sig: input,);
    twice::slh_sign_twice(set: number, sk: input, msg: input, ctx: input, random: input, scratch: output,
        sig: output,);
    twice::slh_hash_sign_twice(set: number, function: number, sk: input, msg: input, ctx: input, random: input,
        scratch: output, sig: output,);
    twice::slh_hash_sign_digest_twice(set: number, function: number, sk: input, digest: input, ctx: input,
        random: input, scratch: output, sig: output,);
    internal_form::slh_sign_internal(set: number, sk: input, msg: input, random: input, sig: output,);
    internal_form::slh_verify_internal(set: number, pk: input, msg: input, sig: input,);
    hashed_message::slh_verify_front(set: number, pk: input, ctx: input, sig: input, front: output,);
    hashed_message::slh_verify_hashed(set: number, pk: input, hash: input, sig: input,);
    hardened::slh_verify_hardened(set: number, pk: input, msg: input, ctx: input, sig: input,);
    hardened::slh_hash_verify_digest_hardened(set: number, function: number, pk: input, digest: input, ctx: input,
        sig: input,);
    jobs::slh_sign_jobs(set: number, xmss_levels: number, fors_levels: number, jobs: place u32, start: place usize,
        answers: place usize,);
    jobs::slh_answer_place(set: number, xmss_levels: number, fors_levels: number, job: number, at: place usize,
        size: place usize,);
    jobs::slh_sign_start(set: number, sk: input, msg: input, ctx: input, random: input, start: output,);
    jobs::slh_hash_sign_start(set: number, function: number, sk: input, msg: input, ctx: input, random: input,
        start: output,);
    jobs::slh_sign_job(set: number, xmss_levels: number, fors_levels: number, sk: input, start: input, job: number,
        answer: output,);
    joining::slh_sign_join(set: number, xmss_levels: number, fors_levels: number, sk: input, start: input,
        answers: input, sig: output,);
    generation::slh_keygen_jobs(set: number, xmss_levels: number, jobs: place u32, answer: place usize,);
    generation::slh_keygen_job(set: number, xmss_levels: number, sk_seed: input, sk_prf: input, pk_seed: input,
        job: number, answer: output,);
    generation::slh_keygen_join(set: number, xmss_levels: number, sk_seed: input, sk_prf: input, pk_seed: input,
        answers: input, sk: output,);
    key_files::slh_key_read(file: input, set: place u32, kind: place u32, key: output,);
    key_files::slh_key_write(set: number, kind: number, key: input, file: output,);
    pkix::slh_der_read(der: input, set: place u32, kind: place u32, key: output,);
    pkix::slh_pem_read(pem: input, set: place u32, kind: place u32, key: output,);
    pkix::slh_der_write(set: number, kind: number, of: input, written: place u32, der: output,);
    pkix::slh_pem_write(set: number, kind: number, of: input, written: place u32, pem: output,);
    self_test::slh_self_test(set: number, scratch: output,);
    names::slh_refusal_name(refusal: number, name: output,);
}

/// The version of the library.
#[unsafe(no_mangle)]
pub extern "C" fn slh_version() -> u32 {
    slh_c::version::slh_version()
}

/// The library has one level of code.
#[unsafe(no_mangle)]
pub extern "C" fn slh_level() -> u32 {
    0
}

/// A sentence on a result.
#[unsafe(no_mangle)]
pub extern "C" fn slh_refusal_text(result: u32) -> *const c_char {
    slh::refusal_text::refusal_text(result).as_ptr()
}

/// Writes zeros, which no compiler omits.
#[unsafe(no_mangle)]
pub unsafe extern "C" fn slh_erase(bytes: *mut u8, n: usize) {
    // Safety: the caller's duty.
    for byte in unsafe { output(bytes, n) } {
        // Safety: a reference is a place to write to.
        unsafe { core::ptr::write_volatile(byte, 0) };
    }
}
