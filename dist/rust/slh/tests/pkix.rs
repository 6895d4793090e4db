//! Keys in DER and PEM: those that OpenSSL 3.5 makes and reads where it is there, and those that are refused.
use std::{
    env, fs,
    io::Write,
    process::{self, Command, Stdio},
};

use slh::{
    Conversion, Error, ParameterSet, PublicKey, SecretKey, SlhDsaSha2_128f, SlhDsaSha2_128s, SlhDsaSha2_192f,
    SlhDsaSha2_192s, SlhDsaSha2_256f, SlhDsaSha2_256s,
};

/// The command of OpenSSL 3.5 or later, if it is there.
fn openssl() -> Option<String> {
    let named = env::var("OPENSSL").unwrap_or_default();
    let has = |name: &&str| {
        let said = Command::new(name).args(["list", "-signature-algorithms"]).output();
        said.is_ok_and(|it| String::from_utf8_lossy(&it.stdout).contains("SLH-DSA-SHA2-128f"))
    };
    let found = [&named[..], "openssl-3.5", "/usr/local/bin/openssl-3.5", "openssl"].into_iter().find(has);
    if found.is_none() {
        eprintln!("SKIPPED, since there is no OpenSSL 3.5");
    }
    found.map(str::to_owned)
}

fn run(name: &str, words: &[&str], given: &[u8]) -> Vec<u8> {
    let command = &mut Command::new(name);
    let mut child =
        command.args(words).stdin(Stdio::piped()).stdout(Stdio::piped()).stderr(Stdio::null()).spawn().expect("a run");
    child.stdin.take().expect("an input").write_all(given).expect("what it reads");
    let done = child.wait_with_output().expect("an end");
    assert!(done.status.success(), "{words:?}");
    done.stdout
}

fn secret_pem<P: ParameterSet>(secret: &SecretKey<P>) -> Vec<u8> {
    let mut made = Vec::new();
    secret.write_pem_to(&mut made).expect("PEM");
    made
}

fn public_pem<P: ParameterSet>(public: &PublicKey<P>) -> Vec<u8> {
    let mut made = Vec::new();
    public.write_pem_to(&mut made).expect("PEM");
    made
}

fn both_directions<P: ParameterSet>(name: &str) {
    let text = run(name, &["genpkey", "-algorithm", P::NAME], b"");
    let secret = SecretKey::<P>::from_pem(&text).expect("a key of OpenSSL");
    secret.check().expect("a consistent key");
    assert_eq!(secret_pem(&secret), text);
    let (mut der, mut public_der) = (Vec::new(), Vec::new());
    secret.write_der_to(&mut der).expect("DER");
    assert_eq!(der, run(name, &["pkey", "-outform", "DER"], &text));
    assert!(SecretKey::<P>::from_der(&der).expect("its DER") == secret);
    let public = PublicKey::<P>::from_pem(&run(name, &["pkey", "-pubout"], &text)).expect("a public key of OpenSSL");
    assert!(public == secret.public());
    assert_eq!(public_pem(&public), run(name, &["pkey", "-pubout"], &text));
    public.write_der_to(&mut public_der).expect("DER");
    assert_eq!(public_der, run(name, &["pkey", "-pubout", "-outform", "DER"], &text));
    assert!(PublicKey::<P>::from_der(&public_der).expect("its DER") == public);
    let made = SecretKey::<P>::generate().expect("a key");
    let found = run(name, &["pkey", "-check", "-pubout"], &secret_pem(&made));
    let wanted = public_pem(&made.public());
    assert!(String::from_utf8_lossy(&found).contains(String::from_utf8_lossy(&wanted).trim()));
}

#[test]
fn keys_of_openssl_in_both_directions() {
    let Some(name) = openssl() else { return };
    both_directions::<SlhDsaSha2_128s>(&name);
    both_directions::<SlhDsaSha2_128f>(&name);
    both_directions::<SlhDsaSha2_192s>(&name);
    both_directions::<SlhDsaSha2_192f>(&name);
    both_directions::<SlhDsaSha2_256s>(&name);
    both_directions::<SlhDsaSha2_256f>(&name);
}

#[test]
fn commands_that_errors_name_convert() {
    let Some(name) = openssl() else { return };
    let folder = env::temp_dir().join(format!("slh-pkix-{}", process::id()));
    fs::create_dir(&folder).expect("a folder");
    let text = run(&name, &["genpkey", "-algorithm", SlhDsaSha2_128f::NAME], b"");
    let encrypted = run(&name, &["pkey", "-aes256", "-passout", "pass:word"], &text);
    for other in [encrypted, [&b"a comment\n"[..], &text].concat()] {
        let error = SecretKey::<SlhDsaSha2_128f>::from_pem(&other).expect_err("an error").to_string();
        let command = error.rsplit(": ").next().expect("a command");
        let words: Vec<&str> = command.split(' ').skip(1).chain(["-passin", "pass:word"]).collect();
        fs::write(folder.join("FILE"), &other).expect("a file");
        assert!(Command::new(&name).args(words).current_dir(&folder).status().expect("a run").success());
        assert_eq!(fs::read(folder.join("NEW")).expect("a file"), text);
    }
    fs::remove_dir_all(folder).expect("no folder");
}

/// A key of 256f, whose DER and PEM are the longest.
fn key() -> SecretKey<SlhDsaSha2_256f> {
    SecretKey::keygen(&[1; 32], &[2; 32], &[3; 32])
}

fn is_refused(result: Result<SecretKey<SlhDsaSha2_256f>, Error>) -> bool {
    matches!(result, Err(Error::OtherForm(Conversion::By(_))))
}

#[test]
fn each_byte_of_a_prefix_counts() {
    let mut der = Vec::new();
    key().write_der_to(&mut der).expect("DER");
    for at in 0..der.len() - 128 {
        for bit in 0..8 {
            let mut other = der.clone();
            other[at] ^= 1 << bit;
            let result = SecretKey::from_der(&other);
            if (der[at], other[at]) == (0x19, 0x18) {
                assert!(matches!(result, Err(Error::OtherSet { .. })));
            } else {
                assert!(is_refused(result), "byte {at}, bit {bit}");
            }
        }
    }
    for other in [&der[1..], &der[..der.len() - 1], &[&der[..], &[0]].concat(), &[]] {
        assert!(is_refused(SecretKey::from_der(other)));
    }
    let public = PublicKey::<SlhDsaSha2_256f>::from_der(&der);
    assert!(matches!(public, Err(Error::OtherForm(Conversion::IsSecret))));
}

#[test]
fn each_character_counts() {
    let text = secret_pem(&key());
    for at in 0..text.len() {
        for char in *b"\n=-\r" {
            let mut other = text.clone();
            other[at] = char;
            assert!(other == text || is_refused(SecretKey::from_pem(&other)), "character {at}");
        }
    }
    for other in [&text[1..], &text[..text.len() - 2], &[&text[..], b"\n"].concat(), b""] {
        assert!(is_refused(SecretKey::from_pem(other)));
    }
    assert!(SecretKey::from_pem(&text[..text.len() - 1]).expect("no last line feed") == key());
    let public = PublicKey::<SlhDsaSha2_256f>::from_pem(&text);
    assert!(matches!(public, Err(Error::OtherForm(Conversion::IsSecret))));
    let other = SecretKey::<SlhDsaSha2_256s>::from_pem(&text);
    assert!(matches!(other, Err(Error::OtherSet { .. })));
}
