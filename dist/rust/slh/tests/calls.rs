//! Refusals of calls, verdicts, options and generators.
use std::{
    collections::HashMap,
    fs,
    io::{ErrorKind, Read},
    slice,
    sync::atomic::{AtomicBool, AtomicU64, Ordering},
    thread,
};

use slh::{
    Error, Function, Options, ParameterSet, PublicKey, Randomizer, Refusal, SecretKey, Signature, Signer,
    SlhDsaSha2_128f, SlhDsaSha2_128s, SlhDsaSha2_192f, SlhDsaSha2_192s, SlhDsaSha2_256f, SlhDsaSha2_256s, Verifier,
};

type Secret = SecretKey<SlhDsaSha2_128f>;

const DETERMINISTIC: Options<'_> = Options::with_randomizer(Randomizer::Deterministic);

fn generated() -> Secret {
    Secret::generate().unwrap()
}

/// Whether a call was refused so. The refusal is shown as its number and name, and the lengths if it is of a length.
fn is_refused<T>(result: Result<T, Error>, number: u32, name: &str, lengths: &str) -> bool {
    let Err(error) = result else { return false };
    let Error::Refused(refusal) = error else { return false };
    let shown = if lengths.is_empty() { format!("{number} {name}") } else { format!("{number} {name}: {lengths}") };
    assert_eq!((error.to_string(), format!("{refusal:?}")), (shown.clone(), format!("Refusal({shown})")));
    assert!(!refusal.text().is_empty());
    (refusal.number(), refusal.name().as_str()) == (number, name)
}

/// The key with one bit changed in PK.root.
fn with_a_wrong_root(secret: &Secret) -> Secret {
    let mut bytes = *secret.as_bytes();
    bytes[63] ^= 1;
    Secret::from_bytes(bytes)
}

#[test]
fn generated_keys_differ() {
    let (one, other) = (generated(), generated());
    one.check().unwrap();
    let seeds = [&one, &other].map(|it| it.as_bytes().chunks(16).take(3).map(<[u8]>::to_vec).collect::<Vec<_>>());
    let mut all = seeds.concat();
    all.sort();
    all.dedup();
    assert_eq!(all.len(), 6);
}

#[test]
fn randomizers_are_drawn() {
    let secret = generated();
    let drawn = [secret.sign(b"letter").unwrap(), secret.sign(b"letter").unwrap()];
    let same = [DETERMINISTIC; 2].map(|options| secret.sign_with(b"letter", options).unwrap());
    assert!(drawn[0] != drawn[1] && drawn[0] != same[0] && drawn[1] != same[0] && same[0] == same[1]);
    for signature in drawn.iter().chain(&same) {
        secret.public().verify(b"letter", signature).unwrap();
    }
    for (randomizer, given) in [(&[][..], 0), (&[0; 15], 15)] {
        let options = Options { randomizer: Randomizer::Given(randomizer), ..Options::default() };
        let lengths = format!("16 bytes expected, {given} given");
        assert!(is_refused(secret.sign_with(b"letter", options), 17, "BadRandomizerLength", &lengths));
        assert!(is_refused(secret.workers(2).sign_with(b"letter", options), 17, "BadRandomizerLength", &lengths));
    }
}

#[test]
fn contexts_have_at_most_255_bytes() {
    let secret = generated();
    let (longest, longer) = ([0; 255], [0; 256]);
    let signature = secret.sign_with(b"letter", Options { context: &longest, ..Options::default() }).unwrap();
    secret.public().verify_with(b"letter", &longest, &signature).unwrap();
    for context in [&b""[..], &longest[1..], &longer] {
        let verdict = secret.public().verify_with(b"letter", context, &signature);
        assert!(matches!(verdict, Err(Error::Invalid)));
    }
    let options = Options { context: &longer, ..Options::default() };
    let (function, workers) = (Function::Sha2_256, secret.workers(2));
    for options in [options, Options { once: true, ..options }, Options { verify: true, ..options }] {
        for result in [
            secret.sign_with(b"letter", options),
            secret.hash_sign(function, b"letter", options),
            secret.hash_sign_digest(function, &[0; 32], options),
            workers.sign_with(b"letter", options),
            workers.hash_sign(function, b"letter", options),
        ] {
            assert!(is_refused(result, 2, "ContextTooLong", "255 bytes at most expected, 256 given"));
        }
    }
}

#[test]
fn damage_is_invalid() {
    let secret = generated();
    let (public, signature) = (secret.public(), secret.sign(b"letter").unwrap());
    public.verify(b"letter", &signature).unwrap();
    for at in [0, 16, signature.as_bytes().len() - 1] {
        let mut damaged = signature.as_bytes().to_vec();
        damaged[at] ^= 1;
        let damaged = Signature::try_from(&damaged[..]).unwrap();
        assert!(matches!(public.verify(b"letter", &damaged), Err(Error::Invalid)));
    }
    assert!(matches!(public.verify(b"Letter", &signature), Err(Error::Invalid)));
    let pre_hash = public.hash_verify(Function::Sha2_256, b"letter", b"", &signature);
    assert!(matches!(pre_hash, Err(Error::Invalid)));
    let short = Signature::<SlhDsaSha2_128f>::try_from(&signature.as_bytes()[1..]);
    assert!(matches!(short, Err(Error::Invalid)));
    assert!(matches!(with_a_wrong_root(&secret).check(), Err(Error::Invalid)));
}

#[test]
fn wrong_lengths_are_refused() {
    let secret = generated();
    assert!(is_refused(Secret::try_from(&[0; 63][..]), 3, "BadLength", "64 bytes expected, 63 given"));
    let public = PublicKey::<SlhDsaSha2_128f>::try_from(&[0; 33][..]);
    assert!(is_refused(public, 3, "BadLength", "32 bytes expected, 33 given"));
    let signature = secret.sign(b"letter").unwrap();
    for (function, len) in [(Function::Sha2_256, 32), (Function::Sha2_512_224, 28), (Function::Sha2_384, 48)] {
        let (digest, lengths) = (vec![0; len - 1], format!("{len} bytes expected, {} given", len - 1));
        let verdict = secret.public().hash_verify_digest(function, &digest, b"", &signature);
        assert!(is_refused(verdict, 16, "BadDigestLength", &lengths));
        for once in [false, true] {
            let signed = secret.hash_sign_digest(function, &digest, Options { once, ..Options::default() });
            assert!(is_refused(signed, 16, "BadDigestLength", &lengths));
        }
    }
}

#[test]
fn a_refusal_tells_its_lengths() {
    let Err(Error::Refused(refusal)) = Secret::try_from(&[0; 63][..]) else { panic!("63 bytes are a key") };
    assert_eq!((refusal.expected(), refusal.given()), (Some(64), Some(63)));
    assert_eq!((Refusal::BAD_LENGTH.expected(), Refusal::BAD_LENGTH.given()), (None, None));
    assert!(refusal == Refusal::BAD_LENGTH && refusal != Refusal::BAD_DIGEST_LENGTH);
}

#[test]
fn a_wrong_root_signs_nothing_valid() {
    let wrong = with_a_wrong_root(&generated());
    for count in [0, 1, 2] {
        assert!(is_refused(wrong.workers(count).sign(b"letter"), 25, "AnswersDisagree", ""));
    }
    let alone = wrong.sign(b"letter").unwrap();
    assert!(matches!(wrong.public().verify(b"letter", &alone), Err(Error::Invalid)));
}

/// One computation, `verify`, both, and the deprecated word.
#[allow(deprecated)]
const CHECKED: [Options<'_>; 4] = [
    Options { once: true, ..DETERMINISTIC },
    Options { verify: true, ..DETERMINISTIC },
    Options { once: true, verify: true, ..DETERMINISTIC },
    Options { once: true, twice: true, ..DETERMINISTIC },
];

#[test]
fn workers_and_options_make_the_same_signature() {
    let secret = generated();
    let alone = secret.sign_with(b"letter", DETERMINISTIC).unwrap();
    for count in [0, 1, 3, usize::MAX] {
        let workers = secret.workers(count);
        assert!(workers.sign_with(b"letter", DETERMINISTIC).unwrap() == alone);
        for options in CHECKED {
            assert!(workers.sign_with(b"letter", options).unwrap() == alone);
        }
    }
    for options in CHECKED {
        assert!(secret.sign_with(b"letter", options).unwrap() == alone);
    }
}

#[test]
fn options_keep_the_forms_of_pre_hash() {
    let (secret, function, digest) = (generated(), Function::Sha2_512, [7; 64]);
    let by_message = secret.hash_sign(function, b"letter", DETERMINISTIC).unwrap();
    let by_digest = secret.hash_sign_digest(function, &digest, DETERMINISTIC).unwrap();
    for options in CHECKED {
        assert!(secret.hash_sign(function, b"letter", options).unwrap() == by_message);
        assert!(secret.workers(2).hash_sign(function, b"letter", options).unwrap() == by_message);
        assert!(secret.hash_sign_digest(function, &digest, options).unwrap() == by_digest);
    }
}

/// Under a wrong root each signature is not valid, as after a fault.
#[test]
fn an_invalid_signature_is_not_released() {
    let (wrong, function) = (with_a_wrong_root(&generated()), Function::Sha2_256);
    for once in [false, true] {
        let options = Options { verify: true, once, ..Options::default() };
        assert!(matches!(wrong.sign_with(b"letter", options), Err(Error::Fault)));
        assert!(matches!(wrong.hash_sign(function, b"letter", options), Err(Error::Fault)));
        assert!(matches!(wrong.hash_sign_digest(function, &[0; 32], options), Err(Error::Fault)));
        assert!(wrong.sign_with(b"letter", Options { verify: false, ..options }).is_ok());
    }
}

/// A message that another thread changes is another one in the second computation, as after a fault of memory.
struct Changing(Vec<AtomicU64>);

impl Changing {
    fn bytes(&self) -> &[u8] {
        // SAFETY: libslh alone reads the bytes, in C, while they change.
        unsafe { slice::from_raw_parts(self.0.as_ptr().cast(), 8 * self.0.len()) }
    }

    /// Signs by a call while the message changes.
    fn signed<T>(&self, sign: impl FnOnce(&[u8]) -> Result<T, Error>) -> Result<T, Error> {
        let ended = AtomicBool::new(false);
        thread::scope(|scope| {
            scope.spawn(|| {
                while !ended.load(Ordering::Relaxed) {
                    self.0.iter().for_each(|it| _ = it.fetch_add(1, Ordering::Relaxed));
                }
            });
            while self.0[0].load(Ordering::Relaxed) == 0 {}
            let result = sign(self.bytes());
            ended.store(true, Ordering::Relaxed);
            result
        })
    }
}

/// Whether one of some signatures of a changing message is a fault, if that is wanted, or none is. On a busy machine the
/// message may stay as it is for a time, so a fault that is wanted has many tries.
fn faults_are<T>(wanted: bool, sign: impl Fn(&[u8]) -> Result<T, Error>) -> bool {
    let tries = if wanted { 2000 } else { 10 };
    let found = (0..tries).any(|_| {
        let result = Changing((0..4).map(|_| AtomicU64::new(0)).collect()).signed(&sign);
        assert!(matches!(result, Ok(_) | Err(Error::Fault)));
        result.is_err()
    });
    found == wanted
}

#[test]
#[allow(deprecated)]
fn two_computations_that_differ_are_a_fault() {
    let (secret, function) = (generated(), Function::Sha2_256);
    for (once, twice) in [(false, false), (true, false), (true, true)] {
        let (options, wanted) = (Options { once, twice, ..DETERMINISTIC }, !once || twice);
        assert!(faults_are(wanted, |message| secret.sign_with(message, options)));
        assert!(faults_are(wanted, |message| secret.hash_sign(function, message, options)));
        assert!(faults_are(wanted, |digest| secret.hash_sign_digest(function, digest, options)));
    }
}

/// The signature of a message that changes is not valid for the message that is verified.
#[test]
fn workers_verify_before_release() {
    let secret = generated();
    for verify in [false, true] {
        let options = Options { verify, once: true, ..DETERMINISTIC };
        assert!(faults_are(verify, |message| secret.workers(2).sign_with(message, options)));
        assert!(faults_are(verify, |message| secret.workers(2).hash_sign(Function::Sha2_256, message, options)));
    }
}

/// tests/test_rust.py runs the self-test over a library with another answer.
#[test]
fn each_set_passes_its_self_test() {
    let all = [
        SlhDsaSha2_128s::self_test,
        SlhDsaSha2_128f::self_test,
        SlhDsaSha2_192s::self_test,
        SlhDsaSha2_192f::self_test,
        SlhDsaSha2_256s::self_test,
        SlhDsaSha2_256f::self_test,
    ];
    all.iter().for_each(|test| test().unwrap());
}

#[test]
fn a_generator_is_handed_in() {
    let bytes: Vec<u8> = (0..48).collect();
    let mut rest = &bytes[..];
    let secret = Secret::generate_from(|out| rest.read_exact(out)).unwrap();
    assert_eq!(secret.as_bytes()[..48], bytes);
    secret.check().unwrap();
    let failed = Secret::generate_from(|out| rest.read_exact(out));
    assert!(matches!(failed, Err(Error::RandomFailed(error)) if error.kind() == ErrorKind::UnexpectedEof));
}

#[test]
fn public_keys_are_keys_of_maps() {
    let (one, other) = (generated().public(), generated().public());
    let names = HashMap::from([(one, "one"), (other, "other")]);
    let again = PublicKey::from_bytes(*one.as_bytes());
    assert_eq!((names.get(&again), names.get(&other), names.len()), (Some(&"one"), Some(&"other"), 2));
}

#[test]
fn the_version_is_that_of_the_repository() {
    let text = fs::read_to_string(concat!(env!("CARGO_MANIFEST_DIR"), "/../../../VERSION")).unwrap();
    assert_eq!(text.trim(), env!("CARGO_PKG_VERSION"));
    let numbers = text.trim().split('.').map(|it| it.parse::<u32>().unwrap());
    assert_eq!(numbers.fold(0, |sum, number| 1000 * sum + number), slh::version());
}
