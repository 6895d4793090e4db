//! Signs a file by threads of its own and verifies the signature, and then writes it into FILE.sig and the public key,
//! as a key file of slh, into FILE.pub: sign_threads THREADS KEY FILE [RANDOM]
//! So it verifies by: slh verify --key FILE.pub --message FILE --signature FILE.sig
//! KEY has the 64 bytes of a secret key of the set 128f: sed -n 3p secret.key | xxd -r -p > KEY. The context is empty.
//! The randomizer is the first 16 bytes of /dev/urandom, or of the file RANDOM, for tests that have to know them.
use std::sync::atomic::{AtomicU32, Ordering};
use std::{env, fs, io, io::Read, process::ExitCode, thread};

const SET: u32 = 2; // SLH_DSA_SHA2_128F
const XMSS: u32 = 0; // no XMSS tree is cut, since the eight leaves of one are made at once,
const FORS: u32 = 0; // and no FORS tree
const SK: usize = 64;
const N: usize = 16;

#[rustfmt::skip]
#[link(name = "slh", kind = "static")]
unsafe extern "C" {
    fn slh_erase(bytes: *mut u8, n: usize);
    fn slh_sign_jobs(set: u32, xmss_levels: u32, fors_levels: u32, jobs: *mut u32, start_len: *mut usize,
        answers_len: *mut usize) -> u32;
    fn slh_answer_place(set: u32, xmss_levels: u32, fors_levels: u32, job: u32, at: *mut usize, len: *mut usize) -> u32;
    fn slh_sign_start(set: u32, sk: *const u8, sk_len: usize, msg: *const u8, msg_len: usize, ctx: *const u8,
        ctx_len: usize, randomizer: *const u8, randomizer_len: usize, start: *mut u8, start_len: usize) -> u32;
    fn slh_sign_job(set: u32, xmss_levels: u32, fors_levels: u32, sk: *const u8, sk_len: usize, start: *const u8,
        start_len: usize, job: u32, answer: *mut u8, answer_len: usize) -> u32;
    fn slh_sign_join(set: u32, xmss_levels: u32, fors_levels: u32, sk: *const u8, sk_len: usize, start: *const u8,
        start_len: usize, answers: *const u8, answers_len: usize, sig: *mut u8, sig_len: usize) -> u32;
    fn slh_verify(set: u32, pk: *const u8, pk_len: usize, msg: *const u8, msg_len: usize, ctx: *const u8,
        ctx_len: usize, sig: *const u8, sig_len: usize) -> u32;
}

/// Bytes that are erased when they are dropped. They stay in their place where a Secret is moved.
struct Secret(Vec<u8>);

impl Drop for Secret {
    fn drop(&mut self) {
        // SAFETY: each slice has the length that follows it, and each output is a place of its own. So below.
        unsafe { slh_erase(self.0.as_mut_ptr(), self.0.len()) }
    }
}

fn done(step: &str, result: u32) -> io::Result<()> {
    if result == 0 { Ok(()) } else { Err(io::Error::other(format!("{step}: {result}"))) }
}

/// The answer of a job, and where it begins among those of all jobs.
#[rustfmt::skip]
fn answer(sk: &[u8], start: &[u8], job: u32) -> io::Result<(usize, Secret)> {
    let (mut at, mut len) = (0, 0);
    done("place", unsafe { slh_answer_place(SET, XMSS, FORS, job, &mut at, &mut len) })?;
    let mut answer = Secret(vec![0; len]);
    done("job", unsafe { slh_sign_job(SET, XMSS, FORS, sk.as_ptr(), sk.len(), start.as_ptr(), start.len(), job,
        answer.0.as_mut_ptr(), len) })?;
    Ok((at, answer))
}

/// The signature, by that many threads, this one among them. There is no context.
#[rustfmt::skip]
fn sign(sk: &[u8], msg: &[u8], randomizer: &[u8; N], threads: usize) -> io::Result<Vec<u8>> {
    let (mut jobs, mut start_len, mut answers_len) = (0, 0, 0);
    done("jobs", unsafe { slh_sign_jobs(SET, XMSS, FORS, &mut jobs, &mut start_len, &mut answers_len) })?;
    let (mut start, mut answers, mut sig) = (Secret(vec![0; start_len]), Secret(vec![0; answers_len]), vec![0; 17088]);
    done("start", unsafe { slh_sign_start(SET, sk.as_ptr(), sk.len(), msg.as_ptr(), msg.len(), b"".as_ptr(), 0,
        randomizer.as_ptr(), N, start.0.as_mut_ptr(), start_len) })?;

    let next = AtomicU32::new(0);
    let numbers = || (0..jobs).map(|_| next.fetch_add(1, Ordering::Relaxed)).take_while(|&job| job < jobs);
    let work = || numbers().map(|job| answer(sk, &start.0, job)).collect::<io::Result<Vec<_>>>();
    let parts: Vec<_> = thread::scope(|scope| {
        let others: Vec<_> = (1..threads).map(|_| scope.spawn(work)).collect();
        let own = work();
        others.into_iter().map(|other| other.join().unwrap()).chain([own]).collect::<io::Result<_>>()
    })?;
    for (at, part) in parts.into_iter().flatten() {
        answers.0[at..at + part.0.len()].copy_from_slice(&part.0);
    }
    done("join", unsafe { slh_sign_join(SET, XMSS, FORS, sk.as_ptr(), sk.len(), start.0.as_ptr(), start_len,
        answers.0.as_ptr(), answers_len, sig.as_mut_ptr(), sig.len()) })?;
    Ok(sig)
}

#[rustfmt::skip]
fn verify(pk: &[u8], msg: &[u8], sig: &[u8]) -> io::Result<()> {
    done("verify", unsafe { slh_verify(SET, pk.as_ptr(), pk.len(), msg.as_ptr(), msg.len(), b"".as_ptr(), 0,
        sig.as_ptr(), sig.len()) })
}

/// Reads a file whole, or of one that may go on the first bytes. The error names it.
fn read(path: &str, most: u64) -> Result<Secret, String> {
    let mut bytes = Secret(Vec::with_capacity(fs::metadata(path).map_or(0, |it| it.len() as usize).max(N)));
    let read = fs::File::open(path).and_then(|file| file.take(most).read_to_end(&mut bytes.0));
    read.map(|_| bytes).map_err(|fault| format!("{path}: {fault}"))
}

/// What the arguments name: the threads, the key, the message and the randomizer.
fn given(words: &[String]) -> Result<(usize, Secret, Secret, [u8; N]), String> {
    let usage = || String::from("usage: sign_threads THREADS KEY FILE [RANDOM]");
    let [_, threads, key, path, random @ ..] = words else { return Err(usage()) };
    let random = read(random.first().map_or("/dev/urandom", String::as_str), N as u64)?;
    let mut randomizer = [0; N];
    if random.0.len() != N { return Err(format!("the randomizer has another length than {N} bytes")) }
    randomizer.copy_from_slice(&random.0);
    let sk = read(key, u64::MAX)?;
    if sk.0.len() != SK { return Err(format!("{key}: another length than {SK} bytes")) }
    Ok((threads.parse().map_err(|_| usage())?, sk, read(path, u64::MAX)?, randomizer))
}

fn run(path: &str, (threads, sk, msg, randomizer): (usize, Secret, Secret, [u8; N])) -> io::Result<()> {
    let sig = sign(&sk.0, &msg.0, &randomizer, threads)?;
    let pk = sk.0[SK / 2..].to_vec();
    drop(sk); // the key is erased
    verify(&pk, &msg.0, &sig)?;
    let digits: String = pk.iter().map(|byte| format!("{byte:02x}")).collect();
    fs::write(format!("{path}.sig"), &sig)?;
    fs::write(format!("{path}.pub"), format!("slh-dsa-public 2\nSLH-DSA-SHA2-128f\n{digits}\n"))
}

fn main() -> ExitCode {
    let words: Vec<String> = env::args().collect();
    let (status, why) = match given(&words) {
        Err(why) => (2, why),
        Ok(given) => match run(&words[3], given) {
            Ok(()) => (0, String::from("valid")),
            Err(why) => (1, why.to_string()),
        },
    };
    if status == 0 { println!("{why}") } else { eprintln!("{why}") }
    ExitCode::from(status)
}
