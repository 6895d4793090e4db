//! Many signatures that are verified in one call.

use alloc::{vec, vec::Vec};

use crate::{
    Error, ParameterSet, PublicKey,
    call::done,
    sys::{self, Item},
};

/// An item of [`verify_many`]: a signature with its key, message and context, all borrowed.
#[derive(Clone, Copy, Debug)]
pub struct Signed<'a, P: ParameterSet> {
    /// The key that has to have signed.
    pub public: &'a PublicKey<P>,
    /// The message.
    pub message: &'a [u8],
    /// The context, which is invalid above 255 bytes.
    pub context: &'a [u8],
    /// The bytes of a signature, which is invalid if it has another length than the set's.
    pub signature: &'a [u8],
}

impl<P: ParameterSet> Signed<'_, P> {
    fn given(&self) -> Item<'_> {
        sys::item(self.public.as_bytes().as_ref(), self.message, self.context, self.signature)
    }
}

/// Verifies signatures of the pure form, any number in one call, in less time than a call for each takes (Algorithm 24).
/// The results are those of the items, in order: `Error::Invalid` as in
/// [`Verifier::verify_with`](crate::Verifier::verify_with). Only `Ok` says that an item's signature is valid.
#[must_use = "only Ok says that a signature is valid"]
pub fn verify_many<P: ParameterSet>(items: &[Signed<'_, P>]) -> Vec<Result<(), Error>> {
    let given: Vec<_> = items.iter().map(Signed::given).collect();
    let mut verdicts = vec![sys::SLH_INVALID; given.len()];
    let _ = sys::verify_many(P::NUMBER, &given, &mut verdicts);
    // A refusal of the call is each verdict, too.
    verdicts.into_iter().map(done).collect()
}
