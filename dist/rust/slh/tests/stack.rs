//! What calls leave on the stack: it is painted before a call, and read through /proc after it. Without optimisation
//! calls take 1 MB, which is not overwritten.
#![cfg(all(target_os = "linux", not(debug_assertions)))]
use std::{fs::File, hint::black_box, os::unix::fs::FileExt, thread};

use slh::{
    Options, ParameterSet, Randomizer, SecretKey, Signer, SlhDsaSha2_128f, SlhDsaSha2_128s, SlhDsaSha2_192f,
    SlhDsaSha2_192s, SlhDsaSha2_256f, SlhDsaSha2_256s,
};

const PAINTED: usize = 1 << 20;
const PAINT: u8 = 0xa5;
/// The bytes right below the caller: frames of the package's own functions, which have pointers and lengths.
const OF_PACKAGE: usize = 4096;
/// The bytes below those that are overwritten: addresses of the function that does so.
const OF_OVERWRITING: usize = 64;

/// Paints the stack below the caller, and returns the lowest address.
#[inline(never)]
fn paint() -> u64 {
    let mut bytes = [PAINT; PAINTED];
    black_box(&mut bytes).as_ptr() as u64
}

/// Addresses of code and of memory are no secrets: calls of the C library after the last secret leave some.
fn is_address(word: u64) -> bool {
    word >> 47 == 0
}

/// How many words of eight bytes a call leaves below the frames of the package that are no addresses, and no zeros.
fn left_by(call: impl FnOnce()) -> usize {
    let (memory, mut bytes) = (File::open("/proc/self/mem").unwrap(), vec![0; PAINTED]);
    let lowest = paint();
    call();
    memory.read_exact_at(&mut bytes, lowest).unwrap();
    let used = bytes.iter().position(|it| *it != PAINT).expect("a call that takes stack");
    assert!(used > 0, "the call took all that was painted");
    let from = (used + OF_OVERWRITING).next_multiple_of(8) - lowest as usize % 8;
    let words = bytes[from..PAINTED - OF_PACKAGE].chunks_exact(8).map(|it| u64::from_ne_bytes(it.try_into().unwrap()));
    words.filter(|it| !is_address(*it)).count()
}

/// What the calls for a set leave, by name.
fn left<P: ParameterSet>() -> Vec<(&'static str, usize)> {
    let deterministic = Options { randomizer: Randomizer::Deterministic, ..Options::default() };
    let secret = SecretKey::<P>::generate().unwrap();
    vec![
        ("generate", left_by(|| drop(SecretKey::<P>::generate().unwrap()))),
        ("check", left_by(|| secret.check().unwrap())),
        ("sign", left_by(|| drop(secret.sign_with(b"letter", deterministic).unwrap()))),
        ("sign by jobs", left_by(|| drop(secret.workers(1).sign_with(b"letter", deterministic).unwrap()))),
        ("self_test", left_by(|| P::self_test().unwrap())),
    ]
}

/// In a thread, whose stack has room for the paint.
fn leaves_nothing<P: ParameterSet>() {
    let left = thread::Builder::new().stack_size(4 * PAINTED).spawn(left::<P>).unwrap().join().unwrap();
    assert!(left.iter().all(|(_, count)| *count == 0), "{}: {left:?}", P::NAME);
}

#[test]
fn calls_of_fast_sets_leave_nothing() {
    leaves_nothing::<SlhDsaSha2_128f>();
    leaves_nothing::<SlhDsaSha2_192f>();
    leaves_nothing::<SlhDsaSha2_256f>();
}

#[test]
fn calls_of_small_sets_leave_nothing() {
    leaves_nothing::<SlhDsaSha2_128s>();
    leaves_nothing::<SlhDsaSha2_192s>();
    leaves_nothing::<SlhDsaSha2_256s>();
}
