//! A program for `check_memory` of tests/packages.py, which says what it does.
use std::{
    env, fs,
    io::{stdin, Read},
    process,
};

use slh::{AnySecretKey, Error, Function, Options, Randomizer, SecretKey, Signer, SlhDsaSha2_128f, Verifier};

type Secret = SecretKey<SlhDsaSha2_128f>;

const MESSAGE: &[u8] = b"letter";
const ONCE: Options<'_> = Options { once: true, ..Options::with_randomizer(Randomizer::Deterministic) };

/// Signs by a key in each form, and by jobs.
fn sign_by(secret: &Secret) -> Result<(), Error> {
    for options in [ONCE, Options { once: false, verify: true, ..ONCE }] {
        secret.public().verify(MESSAGE, &secret.sign_with(MESSAGE, options)?)?;
        secret.hash_sign(Function::Sha2_256, MESSAGE, options)?;
        secret.hash_sign_digest(Function::Sha2_256, &[0; 32], options)?;
        for count in [1, 3] {
            secret.workers(count).hash_sign(Function::Sha2_256, MESSAGE, options)?;
            secret.public().verify(MESSAGE, &secret.workers(count).sign_with(MESSAGE, options)?)?;
        }
    }
    Ok(())
}

/// The key through a key file, whose last bytes are missing at first, and which has a byte too many at last.
fn through_a_file(secret: &Secret) -> Result<AnySecretKey, Error> {
    let path = env::temp_dir().join(format!("slh-erased-{}", process::id()));
    secret.dump(&path)?;
    let again = AnySecretKey::load(&path)?;
    let file = fs::OpenOptions::new().write(true).open(&path).expect("the file");
    for len in [200, 100, 150] {
        file.set_len(len).expect("another length");
        assert!(AnySecretKey::load(&path).is_err() && Secret::load(&path).is_err());
    }
    fs::remove_file(&path).expect("the file");
    Ok(again)
}

/// The key through PKCS#8 in PEM and DER, in a buffer that is cleared.
fn through_pkcs8(secret: &Secret) -> Result<(), Error> {
    let (mut pem, mut der) = ([0; 168], [0; 84]);
    secret.write_pem_to(&mut pem[..])?;
    secret.write_der_to(&mut der[..])?;
    assert!(Secret::from_pem(&pem)? == *secret && Secret::from_der(&der)? == *secret);
    pem.fill(0);
    der.fill(0);
    std::hint::black_box((&pem, &der));
    Ok(())
}

/// Makes a key, signs by it, and drops it where it was moved to.
fn sign() -> Result<(), Error> {
    let first = Secret::generate()?;
    let digits: Vec<_> = first.as_bytes().iter().map(|byte| format!("{:02x}", byte ^ 0x5a)).collect();
    println!("{}", digits.concat());
    stdin().read_line(&mut String::new()).expect("a line");
    through_pkcs8(&first)?;
    let file = through_a_file(&first)?;
    let AnySecretKey::Sha2_128f(loaded) = file else { panic!("{file:?} is of another set") };
    let (other, again) = (first.duplicate(), Secret::try_from(&first.as_bytes()[..])?);
    assert!(first == other && again == loaded);
    for secret in &Vec::from([first, other, again, loaded]) {
        secret.check()?;
        sign_by(secret)?;
    }
    Ok(())
}

fn main() -> Result<(), Error> {
    sign()?;
    println!("erased");
    stdin().read_to_end(&mut Vec::new()).expect("the end");
    Ok(())
}
