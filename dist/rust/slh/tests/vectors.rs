//! Keys and signatures that other implementations made (tests/vectors/README.md), through each call.
use slh::{
    AnyPublicKey, AnySecretKey, Error, Function, Options, ParameterSet, PublicKey, Randomizer, SecretKey, Signature,
    Signer, SlhDsaSha2_128f, SlhDsaSha2_128s, SlhDsaSha2_192f, SlhDsaSha2_192s, SlhDsaSha2_256f, SlhDsaSha2_256s,
    Verifier,
};

mod vectors_of;
use vectors_of::{Test, tests};

fn seed<P: ParameterSet>(bytes: &[u8]) -> P::Seed {
    P::Seed::try_from(bytes).unwrap_or_else(|_| panic!("a seed of {} bytes", bytes.len()))
}

fn keygen_of<P: ParameterSet>() {
    for test in tests::<P>("keygen") {
        let [first, second, third] = ["skSeed", "skPrf", "pkSeed"].map(|name| seed::<P>(&test.bytes(name)));
        let secret = SecretKey::<P>::keygen(&first, &second, &third);
        assert_eq!(secret.as_bytes().as_ref(), test.bytes("sk"));
        assert_eq!(secret.public().as_bytes().as_ref(), test.bytes("pk"));
        secret.check().unwrap();
    }
}

#[test]
fn keys_are_those_of_their_seeds() {
    keygen_of::<SlhDsaSha2_128s>();
    keygen_of::<SlhDsaSha2_128f>();
    keygen_of::<SlhDsaSha2_192s>();
    keygen_of::<SlhDsaSha2_192f>();
    keygen_of::<SlhDsaSha2_256s>();
    keygen_of::<SlhDsaSha2_256f>();
}

/// Signs as a test says, in one thread and in two, and again with one computation and verified.
fn sign_as<P: ParameterSet>(test: &Test) {
    let secret = SecretKey::<P>::try_from(&test.bytes("sk")[..]).unwrap();
    let (message, context, random) = (test.bytes("message"), test.bytes("context"), test.bytes("random"));
    let randomizer = if random.is_empty() { Randomizer::Deterministic } else { Randomizer::Given(&random) };
    let options = Options { context: &context, randomizer, ..Options::default() };
    let checked = Options { once: true, verify: true, ..options };
    let signed = |signer: &dyn Signer<P>, options| match test.function() {
        None => signer.sign_with(&message, options).unwrap(),
        Some(function) => signer.hash_sign(function, &message, options).unwrap(),
    };
    for signature in [signed(&secret, options), signed(&secret, checked), signed(&secret.workers(2), options)] {
        assert!(signature.as_bytes() == test.bytes("signature"), "{} {}", P::NAME, test.text("form"));
    }
    let any = AnySecretKey::from_bytes(P::NAME, &test.bytes("sk")).unwrap();
    let bytes = match test.function() {
        None => any.sign_with(&message, options).unwrap(),
        Some(function) => any.hash_sign(function, &message, options).unwrap(),
    };
    assert!(bytes[..] == test.bytes("signature"));
}

fn sign_of<P: ParameterSet>() {
    let tests = tests::<P>("sign");
    assert!(tests.iter().any(|it| it.function().is_some()) && tests.iter().any(|it| it.function().is_none()));
    tests.iter().for_each(sign_as::<P>);
}

/// All sign tests of the sets whose names end in f, and the first one of 128s: the others are slow.
#[test]
fn signatures_are_those_of_other_implementations() {
    sign_of::<SlhDsaSha2_128f>();
    sign_of::<SlhDsaSha2_192f>();
    sign_of::<SlhDsaSha2_256f>();
    sign_as::<SlhDsaSha2_128s>(&tests::<SlhDsaSha2_128s>("sign")[0]);
}

fn verify_of<P: ParameterSet>() {
    let tests = tests::<P>("verify");
    assert!(tests.iter().any(Test::is_valid) && !tests.iter().all(Test::is_valid));
    for test in tests {
        let public = PublicKey::<P>::try_from(&test.bytes("pk")[..]).unwrap();
        let (message, context) = (test.bytes("message"), test.bytes("context"));
        let verdict =
            Signature::<P>::try_from(&test.bytes("signature")[..]).and_then(|signature| match test.function() {
                None => public.verify_with(&message, &context, &signature),
                Some(function) => public.hash_verify(function, &message, &context, &signature),
            });
        let (any, sig) = (AnyPublicKey::from_bytes(P::NAME, &test.bytes("pk")).unwrap(), test.bytes("signature"));
        let by_any = match test.function() {
            None => any.verify_with(&message, &context, &sig),
            Some(function) => any.hash_verify(function, &message, &context, &sig),
        };
        assert_eq!(by_any.is_ok(), test.is_valid());
        match verdict {
            Ok(()) => assert!(test.is_valid(), "valid: {}", test.0),
            Err(Error::Invalid) => assert!(!test.is_valid(), "invalid: {}", test.0),
            Err(other) => panic!("{other}"),
        }
    }
}

#[test]
fn verdicts_are_those_of_other_implementations() {
    verify_of::<SlhDsaSha2_128s>();
    verify_of::<SlhDsaSha2_128f>();
    verify_of::<SlhDsaSha2_192s>();
    verify_of::<SlhDsaSha2_192f>();
    verify_of::<SlhDsaSha2_256s>();
    verify_of::<SlhDsaSha2_256f>();
}

/// SHA-256 of "abc" (FIPS 180-4, the example of its section on SHA-256): the standard library has no SHA-2.
const DIGEST_OF_ABC: [u8; 32] = [
    0xba, 0x78, 0x16, 0xbf, 0x8f, 0x01, 0xcf, 0xea, 0x41, 0x41, 0x40, 0xde, 0x5d, 0xae, 0x22, 0x23, 0xb0, 0x03, 0x61,
    0xa3, 0x96, 0x17, 0x7a, 0x9c, 0xb4, 0x10, 0xff, 0x61, 0xf2, 0x00, 0x15, 0xad,
];

#[test]
fn digests_stand_for_messages() {
    let secret = SecretKey::<SlhDsaSha2_128f>::generate().unwrap();
    let (public, options) = (secret.public(), Options { context: b"a context", ..Options::default() });
    let by_digest = secret.hash_sign_digest(Function::Sha2_256, &DIGEST_OF_ABC, options).unwrap();
    let by_message = secret.hash_sign(Function::Sha2_256, b"abc", options).unwrap();
    for signature in [&by_digest, &by_message] {
        public.hash_verify(Function::Sha2_256, b"abc", b"a context", signature).unwrap();
        public.hash_verify_digest(Function::Sha2_256, &DIGEST_OF_ABC, b"a context", signature).unwrap();
        let pure = public.verify_with(b"abc", b"a context", signature);
        assert!(matches!(pure, Err(Error::Invalid)));
        let other = public.hash_verify_digest(Function::Sha2_256, &[0; 32], b"a context", signature);
        assert!(matches!(other, Err(Error::Invalid)));
    }
}
