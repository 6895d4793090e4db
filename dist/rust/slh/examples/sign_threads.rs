//! Makes a key, signs a file by several threads and verifies the signature, and then writes it into FILE.sig and the
//! public key, as a key file of slh, into FILE.pub: cargo run --example sign_threads THREADS FILE
//! So it verifies by: slh verify --key FILE.pub --message FILE --signature FILE.sig
use std::{env, error::Error, fs, process::ExitCode};

use slh::{SecretKey, Signer, SlhDsaSha2_128f, Verifier};

fn sign(threads: usize, path: &str, message: &[u8]) -> Result<(), Box<dyn Error>> {
    let secret = SecretKey::<SlhDsaSha2_128f>::generate()?;
    let public = secret.public();
    let signature = secret.workers(threads).sign(message)?;
    public.verify(message, &signature)?;
    fs::write(format!("{path}.sig"), &signature)?;
    public.write_to(fs::File::create(format!("{path}.pub"))?)?;
    println!("valid");
    Ok(())
}

/// Prints why the program ends, with this status.
fn end(status: u8, why: String) -> ExitCode {
    eprintln!("{why}");
    ExitCode::from(status)
}

fn main() -> ExitCode {
    let words: Vec<String> = env::args().collect();
    let [_, threads, path] = words.as_slice() else {
        return end(2, "usage: sign_threads THREADS FILE".to_owned());
    };
    match (threads.parse(), fs::read(path)) {
        (Err(error), _) => end(2, format!("{threads}: {error}")),
        (_, Err(error)) => end(2, format!("{path}: {error}")),
        (Ok(threads), Ok(message)) => match sign(threads, path, &message) {
            Ok(()) => ExitCode::SUCCESS,
            Err(error) => end(1, error.to_string()),
        },
    }
}
