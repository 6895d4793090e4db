//! Many signatures in one call: those that other implementations made, and damaged ones.
use slh::{
    Error, ParameterSet, PublicKey, SecretKey, Signed, Signer, SlhDsaSha2_128f, SlhDsaSha2_192f, SlhDsaSha2_256s,
    verify_many,
};

mod vectors_of;
use vectors_of::{Test, tests};

const COUNTS: [usize; 6] = [0, 1, 7, 8, 9, 17];

/// A test of the pure form, with its parts as bytes.
struct Given<P: ParameterSet> {
    public: PublicKey<P>,
    message: Vec<u8>,
    context: Vec<u8>,
    signature: Vec<u8>,
    is_valid: bool,
}

impl<P: ParameterSet> Given<P> {
    fn of(test: &Test) -> Self {
        Given {
            public: PublicKey::try_from(&test.bytes("pk")[..]).unwrap(),
            message: test.bytes("message"),
            context: test.bytes("context"),
            signature: test.bytes("signature"),
            is_valid: test.is_valid(),
        }
    }

    fn item(&self) -> Signed<'_, P> {
        let Given { public, message, context, signature, .. } = self;
        Signed { public, message, context, signature }
    }
}

/// The verdicts, of which each is valid or invalid.
fn verdicts<P: ParameterSet>(items: &[Signed<'_, P>]) -> Vec<bool> {
    let found = verify_many(items);
    found.iter().for_each(|it| assert!(matches!(it, Ok(()) | Err(Error::Invalid)), "{it:?}"));
    found.iter().map(Result::is_ok).collect()
}

/// The tests of a set in lists of these lengths, from each third test on.
fn verdicts_of<P: ParameterSet>() {
    let all: Vec<_> = tests::<P>("verify").iter().filter(|it| it.function().is_none()).map(Given::<P>::of).collect();
    for (count, first) in COUNTS.iter().flat_map(|&count| (0..all.len()).step_by(3).map(move |first| (count, first))) {
        let chosen: Vec<_> = all.iter().cycle().skip(first).take(count).collect();
        let items: Vec<_> = chosen.iter().map(|it| it.item()).collect();
        let wanted: Vec<_> = chosen.iter().map(|it| it.is_valid).collect();
        assert_eq!(verdicts(&items), wanted, "{}, {count} from {first} on", P::NAME);
    }
}

#[test]
fn verdicts_are_those_of_other_implementations() {
    verdicts_of::<SlhDsaSha2_128f>();
    verdicts_of::<SlhDsaSha2_192f>();
    verdicts_of::<SlhDsaSha2_256s>();
}

/// In a list of valid items one has another message, context, key or signature.
#[test]
fn one_damaged_item_is_found_at_its_place() {
    let keys = [0, 1].map(|_| SecretKey::<SlhDsaSha2_128f>::generate().unwrap());
    let [public, other] = [keys[0].public(), keys[1].public()];
    let signature = keys[0].sign(b"letter").unwrap();
    let mut damaged = signature.as_bytes().to_vec();
    damaged[17_087] ^= 1;
    let good = Signed { public: &public, message: b"letter", context: b"", signature: signature.as_bytes() };
    let bad = [
        Signed { public: &other, ..good },
        Signed { message: b"letters", ..good },
        Signed { context: b"context", ..good },
        Signed { context: &[0; 256], ..good },
        Signed { signature: &damaged, ..good },
        Signed { signature: &damaged[..17_087], ..good },
        Signed { signature: b"", ..good },
    ];
    for (count, place) in [(1, 0), (7, 3), (8, 0), (8, 7), (9, 8), (17, 8), (17, 16)] {
        for bad in bad {
            let mut items = vec![good; count];
            items[place] = bad;
            let wanted: Vec<_> = (0..count).map(|it| it != place).collect();
            assert_eq!(verdicts(&items), wanted, "{count} items, {place}");
        }
        assert_eq!(verdicts(&vec![good; count]), vec![true; count]);
    }
}
