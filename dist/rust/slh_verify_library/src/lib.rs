//! libslh_verify for C, from source: `libslh_verify.a` has the calls of `slh_verify.h`, and no code that signs.
#![allow(clippy::missing_safety_doc, clippy::too_many_arguments)]

#[macro_use]
#[path = "../../slh_exports/src/calls.rs"]
#[allow(dead_code)]
mod calls;

use calls::input;
use slh::slh_c_verify;

calls! { slh_c_verify:
    pure_form::slh_verify(set: number, pk: input, msg: input, ctx: input, sig: input,);
    pre_hash_form::slh_hash_verify(set: number, function: number, pk: input, msg: input, ctx: input, sig: input,);
    pre_hash_form::slh_hash_verify_digest(set: number, function: number, pk: input, digest: input, ctx: input,
        sig: input,);
    hardened::slh_verify_hardened(set: number, pk: input, msg: input, ctx: input, sig: input,);
    hardened::slh_hash_verify_digest_hardened(set: number, function: number, pk: input, digest: input, ctx: input,
        sig: input,);
}

/// The version of the library.
#[unsafe(no_mangle)]
pub extern "C" fn slh_version() -> u32 {
    slh_c_verify::version::slh_version()
}
