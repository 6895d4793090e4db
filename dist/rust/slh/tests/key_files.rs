//! Key files: those of tests/vectors/commands, those of the program `slh`, and those that this crate writes.
use std::{
    fs,
    os::unix::fs::PermissionsExt,
    path::{Path, PathBuf},
    process::{self, Command},
};

use slh::{
    AnyPublicKey, AnySecretKey, Error, ParameterSet, PublicKey, Refusal, SecretKey, SlhDsaSha2_128f, SlhDsaSha2_128s,
    SlhDsaSha2_192f, SlhDsaSha2_192s, SlhDsaSha2_256f, SlhDsaSha2_256s,
};

const REPOSITORY: &str = concat!(env!("CARGO_MANIFEST_DIR"), "/../../..");

/// The characters of a text of JSON, up to its end, as bytes.
fn text_of_json(rest: &str) -> Vec<u8> {
    let (mut bytes, mut rest) = (Vec::new(), rest.chars());
    while let Some(it) = rest.next().filter(|it| *it != '"') {
        let next = if it == '\\' { rest.next().expect("an escape") } else { it };
        bytes.push(match (it, next) {
            ('\\', 'n') => b'\n',
            ('\\', 'r') => b'\r',
            ('\\', 'u') => {
                let digits: String = rest.by_ref().take(4).collect();
                u8::from_str_radix(&digits[2..], 16).expect("digits")
            }
            (_, plain) => u8::try_from(plain).expect("a byte"),
        });
    }
    bytes
}

/// The text of JSON behind a mark, if the line has it.
fn text_behind(line: &str, mark: &str) -> Option<Vec<u8>> {
    line.split_once(&format!("{mark}\"")).map(|(_, rest)| text_of_json(rest))
}

/// The number behind a mark.
fn number_behind(line: &str, mark: &str) -> Option<usize> {
    let rest = line.split_once(mark)?.1;
    rest[..rest.find([',', ']']).expect("an end")].parse().ok()
}

/// A key file of the tables, and the refusal that the program `slh` gives for it, if it does.
struct Row {
    is_secret: bool,
    file: Vec<u8>,
    refusal: Option<String>,
}

/// The rows of a table, as tests/test_commands.py reads them.
fn rows(table: &str) -> Vec<Row> {
    let text = fs::read_to_string(Path::new(REPOSITORY).join("tests/vectors/commands").join(table)).unwrap();
    let (mut whole, mut rows) = (Vec::new(), Vec::new());
    for line in text.lines().filter(|it| !it.starts_with('#')) {
        let name = ["secret", "public"].into_iter().find(|it| line.contains(&format!("\"--key\", \"{it}\"")));
        let name = name.expect("a key");
        whole = text_behind(line, &format!("\"{name}\": ")).unwrap_or(whole);
        let mut file = whole.clone();
        if let Some(len) = number_behind(line, &format!("\"cut\": [\"{name}\", ")) {
            file.truncate(len);
        }
        if let Some(at) = number_behind(line, &format!("\"put\": [\"{name}\", ")) {
            file[at] = text_behind(line, &format!("\"put\": [\"{name}\", {at}, ")).expect("bytes")[0];
        }
        let refusal = text_behind(line, "\"errors\": ");
        let refusal = refusal.map(|it| String::from_utf8(it).unwrap().trim_start_matches("slh: ").trim().to_owned());
        rows.push(Row { is_secret: line.contains("\"check\""), file, refusal });
    }
    rows
}

/// The refusal of a result, as its number and name.
fn refused<T>(result: &Result<T, Error>) -> Option<String> {
    match result {
        Ok(_) => None,
        Err(Error::Refused(refusal)) => Some(format!("{} {}", refusal.number(), refusal.name())),
        Err(other) => panic!("{other}"),
    }
}

#[test]
fn damaged_files_are_refused_as_by_the_program() {
    let rows = rows("damaged_keys.jsonl");
    assert!(rows.iter().filter(|it| it.is_secret).count() > 300 && rows.len() > 700);
    for row in &rows {
        let any = if row.is_secret {
            refused(&AnySecretKey::read_from(&row.file[..]))
        } else {
            refused(&AnyPublicKey::read_from(&row.file[..]))
        };
        let text = String::from_utf8_lossy(&row.file);
        assert_eq!(any, row.refusal, "{text}");
        // The types of one set refuse the same files.
        let typed = if row.is_secret {
            SecretKey::<SlhDsaSha2_128f>::read_from(&row.file[..]).map(drop)
        } else {
            PublicKey::<SlhDsaSha2_128f>::read_from(&row.file[..]).map(drop)
        };
        assert_eq!(refused(&typed), row.refusal, "{text}");
    }
    let found = |refusal: Option<&str>| rows.iter().any(|it| it.refusal.as_deref() == refusal);
    let names = ["11 NotAKeyFile", "12 UnknownSet", "13 BadHex", "14 BadKeyLength", "15 TrailingBytes"];
    assert!(names.iter().all(|it| found(Some(it))) && found(None));
}

/// The seeds are the bytes 0 to 47: the third line is that of tests/vectors/commands/versions.jsonl.
const DIGITS: &str = "000102030405060708090a0b0c0d0e0f101112131415161718191a1b1c1d1e1f\
                      202122232425262728292a2b2c2d2e2f3b56e816847f000386aeec2e2bb9e1b5";

fn secret() -> SecretKey<SlhDsaSha2_128f> {
    let [first, second, third] = [0, 16, 32].map(|from| std::array::from_fn(|at| from + at as u8));
    SecretKey::keygen(&first, &second, &third)
}

#[test]
fn the_text_is_that_of_the_program() {
    let (secret, mut sk, mut pk) = (secret(), Vec::new(), Vec::new());
    secret.write_to(&mut sk).unwrap();
    secret.public().write_to(&mut pk).unwrap();
    assert_eq!(sk, format!("slh-dsa-secret 2\nSLH-DSA-SHA2-128f\n{DIGITS}\n").as_bytes());
    assert_eq!(pk, format!("slh-dsa-public 2\nSLH-DSA-SHA2-128f\n{}\n", &DIGITS[64..]).as_bytes());
    for (version, digits, end) in [(1, DIGITS.to_owned(), "\n"), (2, DIGITS.to_uppercase(), "")] {
        let text = format!("slh-dsa-secret {version}\nSLH-DSA-SHA2-128f\n{digits}{end}");
        assert!(SecretKey::read_from(text.as_bytes()).unwrap() == secret);
    }
}

#[test]
fn kinds_and_sets_are_not_mixed_up() {
    let (secret, mut sk, mut pk) = (secret(), Vec::new(), Vec::new());
    secret.write_to(&mut sk).unwrap();
    secret.public().write_to(&mut pk).unwrap();
    assert_eq!(refused(&PublicKey::<SlhDsaSha2_128f>::read_from(&sk[..])).unwrap(), "11 NotAKeyFile");
    assert_eq!(refused(&SecretKey::<SlhDsaSha2_128f>::read_from(&pk[..])).unwrap(), "11 NotAKeyFile");
    assert_eq!(refused(&AnyPublicKey::read_from(&sk[..])).unwrap(), "11 NotAKeyFile");
    assert_eq!(refused(&AnySecretKey::read_from(&pk[..])).unwrap(), "11 NotAKeyFile");
    let other = SecretKey::<SlhDsaSha2_128s>::read_from(&sk[..]).unwrap_err();
    assert_eq!(other.to_string(), "SLH-DSA-SHA2-128s expected, a key of SLH-DSA-SHA2-128f given");
    let expected = ("SLH-DSA-SHA2-128s", "SLH-DSA-SHA2-128f");
    assert!(matches!(other, Error::OtherSet { expected: it, given } if (it, given) == expected));
    assert_eq!(refused(&AnyPublicKey::from_bytes("128f", &[0; 32])).unwrap(), "12 UnknownSet");
    assert_eq!(refused(&AnySecretKey::generate("slh-dsa-sha2-128f")).unwrap(), "12 UnknownSet");
    let short = AnyPublicKey::from_bytes(SlhDsaSha2_128f::NAME, &[0; 33]).unwrap_err();
    assert_eq!(short.to_string(), "3 BadLength: 32 bytes expected, 33 given");
}

#[test]
fn lengths_of_digits_are_told() {
    let text = |digits: &str| format!("slh-dsa-secret 2\nSLH-DSA-SHA2-128f\n{digits}\n");
    let short = SecretKey::<SlhDsaSha2_128f>::read_from(text(&DIGITS[1..]).as_bytes()).unwrap_err();
    assert_eq!(short.to_string(), "14 BadKeyLength: 128 digits expected, 127 given");
    // A file that goes on is judged by its first byte that is no digit, and by the third line.
    for (rest, name) in [("", "14 BadKeyLength"), ("g", "13 BadHex"), ("\n", "14 BadKeyLength")] {
        let text = text(&(DIGITS.repeat(100) + rest));
        assert_eq!(refused(&AnySecretKey::read_from(text.as_bytes())).unwrap(), name);
    }
    let long = format!("{}{}", text(DIGITS), "0".repeat(1000));
    assert_eq!(refused(&AnySecretKey::read_from(long.as_bytes())).unwrap(), "15 TrailingBytes");
    assert_eq!(refused(&AnySecretKey::read_from(&[0x30; 2000][..])).unwrap(), "11 NotAKeyFile");
}

/// A folder that is removed when it is dropped.
struct Folder(PathBuf);

impl Folder {
    fn new(name: &str) -> Self {
        let path = std::env::temp_dir().join(format!("slh-{name}-{}", process::id()));
        fs::create_dir_all(&path).unwrap();
        Folder(path)
    }

    fn path(&self, name: &str) -> PathBuf {
        self.0.join(name)
    }
}

impl Drop for Folder {
    fn drop(&mut self) {
        let _ = fs::remove_dir_all(&self.0);
    }
}

#[test]
fn files_are_new_and_secret_ones_are_the_owners() {
    let (secret, folder) = (secret(), Folder::new("new-key-files"));
    let (sk, pk) = (folder.path("secret.key"), folder.path("public.key"));
    secret.dump(&sk).unwrap();
    secret.public().dump(&pk).unwrap();
    assert_eq!(fs::metadata(&sk).unwrap().permissions().mode() & 0o7777, 0o600);
    assert!(SecretKey::load(&sk).unwrap() == secret);
    assert!(PublicKey::load(&pk).unwrap() == secret.public());
    let other = SecretKey::<SlhDsaSha2_128f>::generate().unwrap();
    for result in [other.dump(&sk), other.public().dump(&sk), AnySecretKey::from(other).dump(&sk)] {
        assert!(matches!(result, Err(Error::WriteFailed(error)) if error.kind() == std::io::ErrorKind::AlreadyExists));
    }
    assert!(SecretKey::load(&sk).unwrap() == secret);
    let missing = AnySecretKey::load(folder.path("none")).unwrap_err();
    assert!(missing.to_string().starts_with("32 ReadFailed: "));
    assert!(matches!(AnyPublicKey::load(&folder.0), Err(Error::ReadFailed(_))));
}

/// Runs `./slh`, by the release in `dist/`.
fn slh(words: &[&str], paths: &[&Path]) -> String {
    let words = words.iter().map(|it| it.as_ref()).chain(paths.iter().map(|it| it.as_os_str()));
    let done = Command::new(Path::new(REPOSITORY).join("slh")).args(words).env("PATH", "/usr/bin:/bin").output();
    let done = done.unwrap();
    assert!(done.status.success(), "{}", String::from_utf8_lossy(&done.stderr));
    String::from_utf8(done.stdout).unwrap()
}

fn interchange<P: ParameterSet>(folder: &Folder)
where
    AnySecretKey: From<SecretKey<P>>,
{
    let generated = AnySecretKey::generate(P::NAME).unwrap();
    assert_eq!(generated.set(), P::NAME);
    let secret = SecretKey::<P>::try_from(generated.as_bytes()).unwrap();
    let (sk, pk) = (folder.path(&format!("{}.sk", P::NAME)), folder.path(&format!("{}.pk", P::NAME)));
    secret.dump(&sk).unwrap();
    assert_eq!(slh(&["check", "--key"], &[&sk]), "consistent\n");
    fs::write(&pk, slh(&["public", "--key"], &[&sk])).unwrap();
    let public = PublicKey::<P>::load(&pk).unwrap();
    assert!(public == secret.public());
    let mut text = Vec::new();
    public.write_to(&mut text).unwrap();
    assert!(text == fs::read(&pk).unwrap() && slh(&["upgrade", "--key"], &[&pk]).as_bytes() == text);
    assert_eq!(slh(&["upgrade", "--key"], &[&sk]).as_bytes(), fs::read(&sk).unwrap());
    let any = AnySecretKey::load(&sk).unwrap();
    assert!(any.set() == P::NAME && any.as_bytes() == secret.as_bytes().as_ref());
    assert!(any.public().as_bytes() == public.as_bytes().as_ref());
    assert!(AnySecretKey::from(secret).public() == AnyPublicKey::load(&pk).unwrap());
}

#[test]
fn the_program_reads_and_writes_the_same_files() {
    let folder = Folder::new("keys-of-the-program");
    interchange::<SlhDsaSha2_128s>(&folder);
    interchange::<SlhDsaSha2_128f>(&folder);
    interchange::<SlhDsaSha2_192s>(&folder);
    interchange::<SlhDsaSha2_192f>(&folder);
    interchange::<SlhDsaSha2_256s>(&folder);
    interchange::<SlhDsaSha2_256f>(&folder);
}

#[test]
fn refusals_of_key_files_have_names_and_texts() {
    let all = [
        (Refusal::NOT_A_KEY_FILE, 11, "NotAKeyFile"),
        (Refusal::UNKNOWN_SET, 12, "UnknownSet"),
        (Refusal::BAD_HEX, 13, "BadHex"),
        (Refusal::BAD_KEY_LENGTH, 14, "BadKeyLength"),
        (Refusal::TRAILING_BYTES, 15, "TrailingBytes"),
    ];
    for (refusal, number, name) in all {
        assert_eq!(refusal.to_string(), format!("{number} {name}"));
        assert!(refusal.text().contains(' '));
    }
}
