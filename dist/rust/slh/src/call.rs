//! What the number means that a call returns.
use crate::{Error, Refusal, sys};

/// A call's number as a result.
pub(crate) fn done(result: u32) -> Result<(), Error> {
    match result {
        sys::SLH_DONE => Ok(()),
        sys::SLH_INVALID => Err(Error::Invalid),
        sys::SLH_FAULT => Err(Error::Fault),
        sys::SLH_SELF_TEST_FAILED => Err(Error::SelfTestFailed),
        number => Err(Refusal::of(number).into()),
    }
}

/// The same for a call that cannot be refused: the types give it the lengths of its set.
pub(crate) fn certainly_done(result: u32) {
    if let Err(error) = done(result) {
        panic!("a call takes the lengths of its own sets: {error}");
    }
}

#[cfg(test)]
mod tests {
    use super::*;

    #[test]
    fn each_number_is_one_error() {
        assert!(done(0).is_ok());
        assert!(matches!(done(30), Err(Error::Invalid)));
        assert!(matches!(done(38), Err(Error::Fault)));
        assert!(matches!(done(40), Err(Error::SelfTestFailed)));
        let refused = (1..100).filter(|it| ![30, 38, 40].contains(it));
        for number in refused {
            assert!(matches!(done(number), Err(Error::Refused(refusal)) if refusal.number() == number));
        }
    }
}
