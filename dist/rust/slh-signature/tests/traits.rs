//! Functions that are generic over the traits of `signature` alone.
use signature::{Keypair, SignatureEncoding, Signer, Verifier};
use slh::{Options, Randomizer, SecretKey, SlhDsaSha2_128f, SlhDsaSha2_192f};
use slh_signature::{Signature, SigningKey};

/// The bytes of a signature, which was verified after it went through them.
fn through_bytes<S, K>(key: &K, message: &[u8]) -> Result<Vec<u8>, signature::Error>
where
    S: SignatureEncoding + for<'a> TryFrom<&'a [u8], Error = signature::Error>,
    K: Signer<S> + Keypair,
    K::VerifyingKey: Verifier<S>,
{
    let bytes = key.try_sign(message)?.to_vec();
    let signature = S::try_from(&bytes[..])?;
    key.verifying_key().verify(message, &signature)?;
    assert!(key.verifying_key().verify(b"another", &signature).is_err());
    Ok(bytes)
}

#[test]
fn generic_code_signs_and_verifies() {
    let (secret, other) = (SecretKey::<SlhDsaSha2_128f>::generate().unwrap(), SecretKey::<SlhDsaSha2_192f>::generate());
    let public = secret.public();
    let bytes = through_bytes::<Signature<_>, _>(&SigningKey::from(secret), b"letter").unwrap();
    let signature = slh::Signature::try_from(&bytes[..]).unwrap();
    slh::Verifier::verify(&public, b"letter", &signature).unwrap();
    assert_eq!(through_bytes::<Signature<_>, _>(&SigningKey::from(other.unwrap()), b"letter").unwrap().len(), 35664);
}

#[test]
fn other_lengths_are_no_signatures() {
    assert!(Signature::<SlhDsaSha2_128f>::try_from(&[0; 17088][..]).is_ok());
    for len in [0, 17087, 17089] {
        assert!(Signature::<SlhDsaSha2_128f>::try_from(&vec![0; len][..]).is_err());
    }
}

#[test]
fn encodings_are_the_bytes() {
    let secret = SecretKey::<SlhDsaSha2_128f>::generate().unwrap();
    let options = Options { randomizer: Randomizer::Deterministic, ..Options::default() };
    let signature = slh::Signer::sign_with(&secret, b"letter", options).unwrap();
    let wrapped = Signature::from(signature.clone());
    assert!(wrapped.to_bytes()[..] == *signature.as_bytes() && wrapped.encoded_len() == 17088);
    assert_eq!(format!("{:?}", SigningKey::from(secret)), "SigningKey(SecretKey(SLH-DSA-SHA2-128f))");
}
