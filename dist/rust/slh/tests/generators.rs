//! Keys and signatures by a generator that gives known bytes, and by one that fails.
use std::num::NonZeroU32;

use rand_core::{CryptoRng, Error, RngCore};
use slh::{FromRng, Function, Options, Randomizer, SecretKey, SignWithRng, Signer, SlhDsaSha2_128f};

/// A generator of the bytes 0, 1, 2, .. and then of an error.
struct Counting {
    next: u8,
    end: u8,
}

impl RngCore for Counting {
    fn next_u32(&mut self) -> u32 {
        unreachable!("bytes are taken alone")
    }

    fn next_u64(&mut self) -> u64 {
        unreachable!("bytes are taken alone")
    }

    fn fill_bytes(&mut self, _: &mut [u8]) {
        unreachable!("this panics in place of an error")
    }

    fn try_fill_bytes(&mut self, bytes: &mut [u8]) -> Result<(), Error> {
        for byte in bytes {
            if self.next == self.end {
                return Err(NonZeroU32::new(5).unwrap().into());
            }
            *byte = self.next;
            self.next += 1;
        }
        Ok(())
    }
}

impl CryptoRng for Counting {}

type Secret = SecretKey<SlhDsaSha2_128f>;

#[test]
fn bytes_are_those_of_the_generator() {
    let mut rng = Counting { next: 0, end: 255 };
    let secret = Secret::from_rng(&mut rng).unwrap();
    assert_eq!(secret.as_bytes()[..48], (0..48).collect::<Vec<u8>>());
    let [first, second] = [48, 64].map(|from| (from..from + 16).collect::<Vec<u8>>());
    let options = |random| Options { randomizer: Randomizer::Given(random), context: b"letters", ..Options::default() };
    let by_generator = Options { context: b"letters", randomizer: Randomizer::Deterministic, ..Options::default() };
    let signature = secret.sign_with_rng(&mut rng, b"letter", by_generator).unwrap();
    assert!(signature == secret.sign_with(b"letter", options(&first)).unwrap());
    let signature =
        secret.workers(2).hash_sign_with_rng(&mut rng, Function::Sha2_256, b"letter", by_generator).unwrap();
    assert!(signature == secret.hash_sign(Function::Sha2_256, b"letter", options(&second)).unwrap());
    assert_eq!(rng.next, 80);
}

#[test]
fn a_generator_that_fails_is_told() {
    for end in [0, 16, 47] {
        let failed = Secret::from_rng(&mut Counting { next: 0, end });
        assert!(matches!(failed, Err(slh::Error::RandomFailed(error)) if error.raw_os_error() == Some(5)));
    }
    let secret = Secret::generate().unwrap();
    let failed = secret.sign_with_rng(&mut Counting { next: 0, end: 15 }, b"letter", Options::default());
    assert!(matches!(failed, Err(slh::Error::RandomFailed(_))));
}
