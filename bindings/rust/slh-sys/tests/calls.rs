//! A key and a signature by the declared calls.
use slh_sys::*;

const SET: u32 = SLH_DSA_SHA2_128F;
const NONE: &[u8] = &[];

/// The result of verifying a signature of a message under the empty context.
fn verified(pk: &[u8], msg: &[u8], sig: &[u8]) -> u32 {
    let (p, m, c, s) = (pk.as_ptr(), msg.as_ptr(), NONE.as_ptr(), sig.as_ptr());
    // SAFETY: each pointer is that of a slice, and its length follows.
    unsafe { slh_verify(SET, p, pk.len(), m, msg.len(), c, 0, s, sig.len()) }
}

#[test]
fn a_signature_is_valid_for_its_message_alone() {
    let (mut pk, mut sk, mut sig) = ([0; 32], [0; 64], vec![0; 17_088]);
    let (seed, message, none) = ([7; 16], b"letter", NONE.as_ptr());
    let s = seed.as_ptr();
    // SAFETY: each pointer is that of an array, and its length follows. The outputs overlap nothing.
    unsafe {
        assert_eq!(slh_keygen(SET, s, 16, s, 16, s, 16, sk.as_mut_ptr(), sk.len()), SLH_DONE);
        assert_eq!(slh_public(SET, sk.as_ptr(), sk.len(), pk.as_mut_ptr(), pk.len()), SLH_DONE);
        let (k, m, out) = (sk.as_ptr(), message.as_ptr(), sig.as_mut_ptr());
        assert_eq!(slh_sign(SET, k, sk.len(), m, message.len(), none, 0, none, 0, out, sig.len()), SLH_DONE);
    }
    assert_eq!((verified(&pk, message, &sig), verified(&pk, b"latter", &sig)), (SLH_DONE, SLH_INVALID));
}
