//! Makes a key, signs a file and verifies the signature, and then writes it into FILE.sig and the public key, as a key
//! file of slh, into FILE.pub: sign_file FILE
//! So it verifies by: slh verify --key FILE.pub --message FILE --signature FILE.sig
use std::{env, fs, io::Read, process::ExitCode};

const SET: u32 = 2; // SLH_DSA_SHA2_128F
const N: usize = 16;

#[rustfmt::skip]
#[link(name = "slh", kind = "static")]
unsafe extern "C" {
    fn slh_erase(bytes: *mut u8, n: usize);
    fn slh_keygen(set: u32, sk_seed: *const u8, sk_seed_len: usize, sk_prf: *const u8, sk_prf_len: usize,
        pk_seed: *const u8, pk_seed_len: usize, sk: *mut u8, sk_len: usize) -> u32;
    fn slh_public(set: u32, sk: *const u8, sk_len: usize, pk: *mut u8, pk_len: usize) -> u32;
    fn slh_sign_twice(set: u32, sk: *const u8, sk_len: usize, msg: *const u8, msg_len: usize, ctx: *const u8,
        ctx_len: usize, randomizer: *const u8, n: usize, scratch: *mut u8, room: usize, sig: *mut u8, len: usize) -> u32;
    fn slh_verify(set: u32, pk: *const u8, pk_len: usize, msg: *const u8, msg_len: usize, ctx: *const u8, ctx_len: usize,
        sig: *const u8, sig_len: usize) -> u32;
}

/// Bytes that are erased when they are dropped. They stay in their place where a Secret is moved.
struct Secret(Vec<u8>);

impl Drop for Secret {
    fn drop(&mut self) {
        // SAFETY: each pointer has the length that follows it, and each output is a buffer of its own. So below.
        unsafe { slh_erase(self.0.as_mut_ptr(), self.0.len()) }
    }
}

fn done(step: &str, result: u32) -> Result<(), String> {
    if result == 0 { Ok(()) } else { Err(format!("{step}: {result}")) }
}

#[rustfmt::skip]
fn keygen(seeds: &Secret) -> Result<(Secret, Vec<u8>), String> {
    let (mut sk, mut pk, seed) = (Secret(vec![0; 4 * N]), vec![0; 2 * N], |at| seeds.0[at * N..][..N].as_ptr());
    done("keygen", unsafe { slh_keygen(SET, seed(0), N, seed(1), N, seed(2), N, sk.0.as_mut_ptr(), sk.0.len()) })?;
    done("public", unsafe { slh_public(SET, sk.0.as_ptr(), sk.0.len(), pk.as_mut_ptr(), pk.len()) })?;
    Ok((sk, pk))
}

#[rustfmt::skip]
fn sign(sk: &Secret, msg: &[u8], ctx: &[u8], randomizer: &[u8]) -> Result<Vec<u8>, String> {
    let (mut sig, mut scratch) = (vec![0; 17088], vec![0; 2 * 17088]); // two times finds faults of the processor
    done("sign", unsafe { slh_sign_twice(SET, sk.0.as_ptr(), sk.0.len(), msg.as_ptr(), msg.len(), ctx.as_ptr(), ctx.len(),
        randomizer.as_ptr(), randomizer.len(), scratch.as_mut_ptr(), scratch.len(), sig.as_mut_ptr(), sig.len()) })?;
    Ok(sig)
}

#[rustfmt::skip]
fn verify(pk: &[u8], msg: &[u8], ctx: &[u8], sig: &[u8]) -> Result<(), String> {
    done("verify", unsafe { slh_verify(SET, pk.as_ptr(), pk.len(), msg.as_ptr(), msg.len(), ctx.as_ptr(), ctx.len(), sig.as_ptr(), sig.len()) })
}

/// Signs a message: the signature, and the public key as a key file.
fn signed(msg: &[u8]) -> Result<(Vec<u8>, String), String> {
    let mut seeds = Secret(vec![0; 4 * N]);
    let random = fs::File::open("/dev/urandom").and_then(|mut it| it.read_exact(&mut seeds.0));
    random.map_err(|fault| fault.to_string())?;
    let (sk, pk) = keygen(&seeds)?;
    let sig = sign(&sk, msg, b"", &seeds.0[3 * N..])?;
    verify(&pk, msg, b"", &sig)?;
    let digits: String = pk.iter().map(|byte| format!("{byte:02x}")).collect();
    Ok((sig, format!("slh-dsa-public 2\nSLH-DSA-SHA2-128f\n{digits}\n")))
}

fn end(status: u8, why: impl std::fmt::Display) -> ExitCode {
    eprintln!("{why}");
    ExitCode::from(status)
}

fn main() -> ExitCode {
    let Some(path) = env::args().nth(1) else { return end(2, "usage: sign_file FILE") };
    let msg = match fs::read(&path) {
        Ok(msg) => msg,
        Err(fault) => return end(2, format!("{path}: {fault}")),
    };
    let (sig, key) = match signed(&msg) {
        Ok(made) => made,
        Err(fault) => return end(1, fault),
    };
    if let Err(fault) = fs::write(format!("{path}.sig"), sig).and(fs::write(format!("{path}.pub"), key)) {
        return end(1, fault);
    }
    println!("valid");
    ExitCode::SUCCESS
}
