//! The reader of vector files, which several tests share.
use std::{fs, path::Path};

use slh::{Function, ParameterSet};

const FOLDER: &str = concat!(env!("CARGO_MANIFEST_DIR"), "/../../../tests/vectors");

/// The tests of a kind for a set, but for those of the internal form: a line each.
pub fn tests<P: ParameterSet>(kind: &str) -> Vec<Test> {
    let path = Path::new(FOLDER).join(format!("{}.json", P::NAME.to_lowercase()));
    let text = fs::read_to_string(&path).unwrap_or_else(|error| panic!("{}: {error}", path.display()));
    let all = text.lines().filter(|line| line.contains("\"kind\"")).map(|line| Test(line.to_owned()));
    let found: Vec<_> = all.filter(|it| it.text("kind") == kind && it.find("form") != Some("internal")).collect();
    assert!(found.len() > 1, "{} has too few tests of {kind}", path.display());
    found
}

/// A test: one line of a vector file, whose members have texts of plain letters, or true or false.
pub struct Test(pub String);

impl Test {
    pub fn find(&self, name: &str) -> Option<&str> {
        let (_, rest) = self.0.split_once(&format!("\"{name}\":\""))?;
        rest.split('"').next()
    }

    pub fn text(&self, name: &str) -> &str {
        self.find(name).unwrap_or_else(|| panic!("no member {name}"))
    }

    pub fn bytes(&self, name: &str) -> Vec<u8> {
        let digits = self.text(name);
        let byte = |at| u8::from_str_radix(&digits[at..at + 2], 16).expect("hexadecimal digits");
        (0..digits.len()).step_by(2).map(byte).collect()
    }

    pub fn is_valid(&self) -> bool {
        match (self.0.contains("\"valid\":true"), self.0.contains("\"valid\":false")) {
            (true, false) => true,
            (false, true) => false,
            _ => panic!("no member valid"),
        }
    }

    /// The pre-hash function, unless the form is the pure one.
    pub fn function(&self) -> Option<Function> {
        match self.text("form") {
            "pure" => None,
            "SHA2-224" => Some(Function::Sha2_224),
            "SHA2-256" => Some(Function::Sha2_256),
            "SHA2-384" => Some(Function::Sha2_384),
            "SHA2-512" => Some(Function::Sha2_512),
            "SHA2-512/224" => Some(Function::Sha2_512_224),
            "SHA2-512/256" => Some(Function::Sha2_512_256),
            other => panic!("no form {other}"),
        }
    }
}
