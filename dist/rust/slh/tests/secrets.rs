//! No way to print a value shows a secret key that it has: each way by each holder.
use std::{
    cell::RefCell,
    collections::{BTreeMap, HashMap},
    error,
    fmt::{self, Debug, Write as _},
    marker::PhantomData,
    panic,
    rc::Rc,
    sync::{Arc, Mutex},
};

use slh::{
    AnyPublicKey, AnySecretKey, Options, PublicKey, Randomizer, SecretKey, SlhDsaSha2_128f, SlhDsaSha2_192f,
    SlhDsaSha2_256f,
};

type Secret = SecretKey<SlhDsaSha2_128f>;

/// A way to print values, by its name.
type Way = (&'static str, fn(&dyn Debug) -> Vec<u8>);

const WAYS: [Way; 11] = [
    ("{:?}", |it| format!("{it:?}").into_bytes()),
    ("{:#?}", |it| format!("{it:#?}").into_bytes()),
    ("{:x?}", |it| format!("{it:x?}").into_bytes()),
    ("{:X?}", |it| format!("{it:X?}").into_bytes()),
    ("{:#x?}", |it| format!("{it:#x?}").into_bytes()),
    ("{:02x?}", |it| format!("{it:02x?}").into_bytes()),
    ("{:300?}", |it| format!("{it:300?}").into_bytes()),
    ("{:.300?}", |it| format!("{it:.300?}").into_bytes()),
    ("write!", |it| {
        let mut text = String::new();
        write!(text, "{it:?}").unwrap();
        text.into_bytes()
    }),
    ("an error's text", |it| Box::<dyn error::Error>::from(format!("{it:?}")).to_string().into_bytes()),
    ("a panic", |it| {
        let text = panic::catch_unwind(panic::AssertUnwindSafe(|| failed(it).unwrap())).unwrap_err();
        text.downcast::<String>().expect("a text").into_bytes()
    }),
];

fn failed<T>(error: T) -> Result<(), T> {
    Err(error)
}

const LETTERS: &[u8; 64] = b"ABCDEFGHIJKLMNOPQRSTUVWXYZabcdefghijklmnopqrstuvwxyz0123456789+/";

/// Six bytes as base64, without a rest.
fn base64(bytes: &[u8]) -> String {
    let groups = bytes.chunks(3).map(|it| it.iter().fold(0, |sum, byte| sum << 8 | usize::from(*byte)));
    groups.flat_map(|group| [18, 12, 6, 0].map(|shift| char::from(LETTERS[group >> shift & 63]))).collect()
}

/// The numbers that stand in a text, each of at most three digits of a base.
fn numbers(text: &str, base: u32) -> Vec<u8> {
    let words = text.split(|it: char| !it.is_ascii_alphanumeric()).map(|it| it.trim_start_matches("0x"));
    words.filter_map(|it| u8::from_str_radix(it, base).ok()).collect()
}

fn has(output: &[u8], wanted: &[u8]) -> bool {
    output.windows(wanted.len()).any(|it| it == wanted)
}

/// How an output shows any 8 consecutive bytes of a secret, if it does.
fn leak(output: &[u8], secret: &[u8]) -> Option<&'static str> {
    let text = String::from_utf8_lossy(output);
    let lower = text.to_lowercase().replace(|it: char| !it.is_ascii_hexdigit(), "");
    let (decimal, hexadecimal, web) =
        (numbers(&text, 10), numbers(&text, 16), text.replace('-', "+").replace('_', "/"));
    for eight in secret.windows(8) {
        let digits: String = eight.iter().map(|byte| format!("{byte:02x}")).collect();
        let escaped = eight.escape_ascii().to_string();
        let found = [
            ("raw", has(output, eight)),
            ("digits", lower.contains(&digits)),
            ("a hexadecimal list", has(&hexadecimal, eight)),
            ("a decimal list", has(&decimal, eight)),
            ("escapes", text.contains(&escaped) || text.contains(&escaped.escape_default().to_string())),
            ("base64", web.contains(&base64(&eight[..6]))),
        ];
        if let Some((how, _)) = found.into_iter().find(|(_, is)| *is) {
            return Some(how);
        }
    }
    None
}

/// The bytes that no output may show: SK.seed and SK.prf.
fn seeds(secret: &Secret) -> Vec<u8> {
    secret.as_bytes()[..32].to_vec()
}

/// Whether any way of printing a holder shows a secret: the first, and how.
fn leaks(holder: &dyn Debug, secret: &[u8]) -> Option<String> {
    let found = |(name, print): &Way| leak(&print(holder), secret).map(|how| format!("{name} shows {how}"));
    WAYS.iter().find_map(found)
}

#[derive(Debug)]
struct Named<T> {
    #[allow(dead_code)] // It is printed.
    pub key: T,
    #[allow(dead_code)]
    private: Option<T>,
}

#[derive(Debug)]
#[allow(dead_code)] // It is printed.
struct Tuple<T>(T);

#[derive(Debug)]
#[allow(dead_code)] // It is printed.
enum Choice<T> {
    One { key: T },
    Other(T),
}

#[derive(Debug)]
struct Failure(#[allow(dead_code)] Secret);

impl fmt::Display for Failure {
    fn fmt(&self, f: &mut fmt::Formatter<'_>) -> fmt::Result {
        write!(f, "{:?}", self.0)
    }
}

impl error::Error for Failure {}

/// Values that have a secret key, by name.
fn holders(key: &Secret) -> Vec<(&'static str, Box<dyn Debug + '_>)> {
    let new = || Secret::try_from(&key.as_bytes()[..]).unwrap();
    vec![
        ("value", Box::new(new())),
        ("reference", Box::new(key)),
        ("array of references", Box::new([key, key])),
        ("Box", Box::new(Box::new(new()))),
        ("Rc", Box::new(Rc::new(new()))),
        ("Arc", Box::new(Arc::new(Mutex::new(new())))),
        ("RefCell", Box::new(RefCell::new(new()))),
        ("struct", Box::new(Named { key: new(), private: Some(new()) })),
        ("struct of references", Box::new(Named { key, private: Some(key) })),
        ("tuple struct", Box::new(Tuple(new()))),
        ("tuple", Box::new((1, new(), "key"))),
        ("enum", Box::new([Choice::One { key: new() }, Choice::Other(new())])),
        ("Vec", Box::new(vec![new(), new()])),
        ("Option", Box::new(Some(new()))),
        ("Result", Box::new(Err::<(), _>(new()))),
        ("value of a map", Box::new(HashMap::from([("key", new())]))),
        ("value of an ordered map", Box::new(BTreeMap::from([(1, Named { key: new(), private: None })]))),
        ("error", Box::new(Failure(new()))),
        ("boxed error", Box::new(Box::<dyn error::Error>::from(Failure(new())))),
        ("workers", Box::new(key.workers(3))),
    ]
}

/// Values that this crate makes of bytes of a secret key that are taken for something else.
fn mistakes(key: &Secret) -> Vec<(&'static str, Box<dyn Debug + '_>)> {
    let bytes = key.as_bytes();
    let options = Options { randomizer: Randomizer::Given(&bytes[..16]), ..Options::default() };
    let public = PublicKey::<SlhDsaSha2_256f>::try_from(&bytes[..]).unwrap();
    vec![
        ("a public key of a secret one", Box::new(public)),
        ("a public key of seeds", Box::new(PublicKey::<SlhDsaSha2_128f>::try_from(&bytes[..32]).unwrap())),
        ("a public key of three seeds", Box::new(PublicKey::<SlhDsaSha2_192f>::try_from(&bytes[..48]).unwrap())),
        ("a struct with it", Box::new(Named { key: public, private: None })),
        ("a seed as randomizer", Box::new(options)),
        ("a length", Box::new(PublicKey::<SlhDsaSha2_128f>::try_from(&bytes[..]))),
        ("another length", Box::new(Secret::try_from(&bytes[..63]))),
        ("a refused randomizer", Box::new(Randomizer::Given(&bytes[..15]))),
    ]
}

#[test]
fn no_way_prints_a_secret() {
    let key = Secret::generate().unwrap();
    let all: Vec<_> = holders(&key).into_iter().chain(mistakes(&key)).collect();
    let leaking = |(name, it): &(_, Box<dyn Debug + '_>)| leaks(it, &seeds(&key)).map(|how| format!("{name}: {how}"));
    let found: Vec<_> = all.iter().filter_map(leaking).collect();
    assert!(found.is_empty(), "{found:#?}");
    assert_eq!((all.len(), WAYS.len()), (28, 11));
}

#[test]
fn the_search_finds_what_is_shown() {
    let key = Secret::generate().unwrap();
    let (bytes, secret) = (key.as_bytes(), seeds(&key));
    for (name, print) in WAYS {
        assert!(leak(&print(bytes), &secret).is_some(), "{name}");
        assert!(leak(&print(&&bytes[24..]), &secret).is_some(), "{name}");
        assert_eq!(leak(&print(&&bytes[32..]), &secret), None, "{name}");
    }
    let digits = |from: &[u8]| from.iter().map(|it| format!("{it:02X}")).collect::<String>();
    let shown = [
        ("raw", bytes[9..17].to_vec()),
        ("digits", digits(&bytes[..8]).into_bytes()),
        ("escapes", bytes[20..].escape_ascii().to_string().into_bytes()),
        ("base64", base64(&bytes[1..61]).into_bytes()),
        ("base64", base64(&bytes[5..17]).replace('+', "-").replace('/', "_").into_bytes()),
    ];
    assert!(shown.iter().all(|(how, output)| leak(output, &secret) == Some(*how)));
    assert_eq!(leak(digits(&bytes[25..]).as_bytes(), &secret), None);
}

#[test]
fn keys_are_printed_as_their_set() {
    let key = Secret::generate().unwrap();
    assert_eq!(format!("{key:?} {key:#?}"), "SecretKey(SLH-DSA-SHA2-128f) SecretKey(SLH-DSA-SHA2-128f)");
    let public = key.public();
    assert_eq!(format!("{public:?} {public}"), "PublicKey(SLH-DSA-SHA2-128f) SLH-DSA-SHA2-128f");
    let workers = format!("{:?}", key.workers(3));
    assert_eq!(workers, "Workers { secret: SecretKey(SLH-DSA-SHA2-128f), count: 3, is_twice: false }");
    let any = AnyPublicKey::from(public);
    assert_eq!(format!("{any:?} {any}"), "AnyPublicKey(SLH-DSA-SHA2-128f) SLH-DSA-SHA2-128f");
    assert_eq!(format!("{:?}", AnySecretKey::from(key)), "AnySecretKey(SLH-DSA-SHA2-128f)");
}

/// Whether a type has a trait.
macro_rules! has_trait {
    ($type:ty: $($bound:tt)+) => {{
        #[allow(dead_code)]
        trait Lacks {
            const HAS: bool = false;
        }
        impl<T: ?Sized> Lacks for T {}
        struct Of<T: ?Sized>(#[allow(dead_code)] PhantomData<T>);
        #[allow(dead_code)]
        impl<T: ?Sized + $($bound)+> Of<T> {
            const HAS: bool = true;
        }
        <Of<$type>>::HAS
    }};
}

/// The traits by which a value is copied, shown or taken apart without a word for it.
macro_rules! traits_of {
    ($type:ty) => {
        [
            ("Clone", has_trait!($type: Clone)),
            ("Copy", has_trait!($type: Copy)),
            ("ToOwned", has_trait!($type: ToOwned)),
            ("Default", has_trait!($type: Default)),
            ("Display", has_trait!($type: fmt::Display)),
            ("LowerHex", has_trait!($type: fmt::LowerHex)),
            ("UpperHex", has_trait!($type: fmt::UpperHex)),
            ("Binary", has_trait!($type: fmt::Binary)),
            ("ToString", has_trait!($type: ToString)),
            ("AsRef", has_trait!($type: AsRef<[u8]>)),
            ("AsMut", has_trait!($type: AsMut<[u8]>)),
            ("Borrow", has_trait!($type: std::borrow::Borrow<[u8]>)),
            ("Deref", has_trait!($type: std::ops::Deref)),
            ("Index", has_trait!($type: std::ops::Index<usize>)),
            ("Into<Vec>", has_trait!($type: Into<Vec<u8>>)),
            ("Into<array>", has_trait!($type: Into<[u8; 64]>)),
            ("IntoIterator", has_trait!($type: IntoIterator)),
            ("Hash", has_trait!($type: std::hash::Hash)),
            ("PartialOrd", has_trait!($type: PartialOrd)),
        ]
    };
}

#[test]
fn secret_keys_are_not_copied_or_shown_by_a_trait() {
    let of = |traits: [(&'static str, bool); 19]| traits.into_iter().filter(|(_, has)| *has).map(|(name, _)| name);
    assert_eq!(of(traits_of!(Secret)).collect::<Vec<_>>(), [""; 0]);
    assert_eq!(of(traits_of!(AnySecretKey)).collect::<Vec<_>>(), [""; 0]);
    // The search finds those that others have.
    let public: Vec<_> = of(traits_of!(PublicKey<SlhDsaSha2_128f>)).collect();
    assert_eq!(public, ["Clone", "Copy", "ToOwned", "Display", "ToString", "Hash"]);
    let vector: Vec<_> = of(traits_of!(Vec<u8>)).collect();
    assert!(
        ["AsRef", "AsMut", "Borrow", "Deref", "Index", "Into<Vec>", "PartialOrd"].iter().all(|it| vector.contains(it))
    );
}

#[test]
fn a_second_key_is_made_by_name() {
    let key = Secret::generate().unwrap();
    let second = key.duplicate();
    assert!(second == key && second.as_bytes().as_ptr() != key.as_bytes().as_ptr());
    for at in [0, 31, 63] {
        let mut other = *key.as_bytes();
        other[at] ^= 1;
        assert!(Secret::from_bytes(other) != key);
    }
}
