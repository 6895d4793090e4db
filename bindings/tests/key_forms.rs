//! A program for `check_key_forms` of tests/key_forms.py, which says what it does.
use std::io::stdin;

use slh::{
    Error, ParameterSet, PublicKey, SecretKey, SlhDsaSha2_128f, SlhDsaSha2_128s, SlhDsaSha2_192f, SlhDsaSha2_192s,
    SlhDsaSha2_256f, SlhDsaSha2_256s,
};

/// What is read as a key of a set, and written again.
fn again<P: ParameterSet>(what: &str, file: &[u8]) -> Result<(u32, Vec<u8>), Error> {
    let mut made = Vec::new();
    match what {
        "public der" => PublicKey::<P>::from_der(file)?.write_der_to(&mut made)?,
        "public pem" => PublicKey::<P>::from_pem(file)?.write_pem_to(&mut made)?,
        "secret der" => SecretKey::<P>::from_der(file)?.write_der_to(&mut made)?,
        _ => SecretKey::<P>::from_pem(file)?.write_pem_to(&mut made)?,
    }
    Ok((P::NUMBER, made))
}

/// One verdict: that of the set that takes the file, or the refusal of all.
fn verdict(what: &str, file: &[u8]) -> String {
    let tried = [
        again::<SlhDsaSha2_128s>(what, file),
        again::<SlhDsaSha2_128f>(what, file),
        again::<SlhDsaSha2_192s>(what, file),
        again::<SlhDsaSha2_192f>(what, file),
        again::<SlhDsaSha2_256s>(what, file),
        again::<SlhDsaSha2_256f>(what, file),
    ];
    let mut said: Vec<_> = tried
        .into_iter()
        .filter_map(|it| match it {
            Ok((number, made)) => Some(format!("{number} {}", digits(&made))),
            Err(Error::OtherSet { .. }) => None,
            Err(Error::OtherForm(_)) => Some("11".to_owned()),
            Err(other) => panic!("{other}"),
        })
        .collect();
    said.dedup();
    said.join(" or ")
}

fn digits(bytes: &[u8]) -> String {
    bytes.iter().map(|it| format!("{it:02x}")).collect()
}

fn bytes(digits: &str) -> Vec<u8> {
    let pairs = (0..digits.len()).step_by(2).map(|at| &digits[at..at + 2]);
    pairs.map(|it| u8::from_str_radix(it, 16).expect("digits")).collect()
}

fn main() {
    for line in stdin().lines() {
        let line = line.expect("a line");
        let (what, file) = line.rsplit_once(' ').expect("a file");
        println!("{}", verdict(what, &bytes(file)));
    }
}
