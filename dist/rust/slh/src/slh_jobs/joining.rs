// Made by tools/plain_rust.py from crates/slh_jobs/src/joining.rt.
//! The signature from the answers of all jobs (FIPS 205, Algorithm 19).

use crate::slh_jobs::all_answers::AllAnswers;
use crate::slh_jobs::fault::JobFault;
use crate::slh_jobs::jobs::answers_len;
use crate::slh_jobs::levels::Levels;
use crate::slh_jobs::start::copy_of_start;
use crate::slh_core::SecretKey;
use crate::slh_core::signing_steps::fors_sig_len;
use crate::slh_few::{wots_sig_len, xmss_sig_len};
use crate::slh_params::{Node, node_of};

/// At least the length of a FORS signature in any set: 64 trees, of each a secret and 14 nodes of 32 bytes.
const MOST_FORS_SIG_LEN: usize = 64 * (1 + 14) * 32;

/// At least the length of the values that the layers of any set sign: 65 nodes of 32 bytes.
const MOST_SIGNED_LEN: usize = 65 * 32;

/// At least the length of the paths of all layers in any set: 76 nodes of 32 bytes.
const MOST_PATHS_LEN: usize = 76 * 32;

/// Answers that fit together, with the FORS signature, the value that each layer signs, n bytes each, and the path of
/// each layer's leaf. All are as they were compared. Even if somebody changes the bytes of the answers meanwhile, these
/// are signed.
struct Judged<'j, 'a> {
    answered: &'j AllAnswers<'a>,
    sig_fors: &'j [u8],
    signed: &'j [u8],
    paths: &'j [u8],
}

impl<'j, 'a> Judged<'j, 'a> {
    /// The value that a layer signs.
    fn signed(&self, layer: u8) -> Node {
        let answered = self.answered;
        let n = answered.signing.trees.signer.public.set.n();
        let start = layer as usize * n;
        node_of(&self.signed[start..start + n])
    }

    /// The path of a layer's leaf.
    fn path(&self, layer: u8) -> &'j [u8] {
        let answered = self.answered;
        let set = answered.signing.trees.signer.public.set;
        let size = set.hp() as usize * set.n();
        let start = layer as usize * size;
        &self.paths[start..start + size]
    }

    /// Writes a layer's part of the signature: the WOTS+ signature of the value that it signs, and the path (FIPS 205,
    /// Algorithm 10).
    fn put_layer(&self, layer: u8, out: &mut [u8]) {
        let answered = self.answered;
        let set = answered.signing.trees.signer.public.set;
        let (wots, auth) = out.split_at_mut(wots_sig_len(set));
        answered.put_wots(layer, &self.signed(layer), wots);
        auth.copy_from_slice(self.path(layer));
    }

    /// As `put_layer`, from `start` on.
    fn put_layer_at(&self, layer: u8, out: &mut [u8], start: usize) {
        let answered = self.answered;
        let end = start + xmss_sig_len(answered.signing.trees.signer.public.set);
        self.put_layer(layer, &mut out[start..end]);
    }

    /// Writes the hypertree signature (FIPS 205, Algorithm 12).
    fn put_layers(&self, out: &mut [u8]) {
        let answered = self.answered;
        let set = answered.signing.trees.signer.public.set;
        let size = xmss_sig_len(set);
        for layer in 0..set.d() as u8 {
            self.put_layer_at(layer, out, layer as usize * size);
        }
    }

    /// Writes the signature.
    fn put_signature(&self, out: &mut [u8]) {
        let answered = self.answered;
        let signing = &answered.signing;
        let set = signing.trees.signer.public.set;
        let n = set.n();
        let (front, rest) = out.split_at_mut(n);
        front.copy_from_slice(&signing.start[..n]);
        let (fors, sig_ht) = rest.split_at_mut(fors_sig_len(set));
        fors.copy_from_slice(self.sig_fors);
        self.put_layers(sig_ht);
    }
}

impl<'a> AllAnswers<'a> {
    /// Whether the answers fit together. If they do, the signature is written, after that verdict.
    fn join(&self, out: &mut [u8]) -> bool {
        let set = self.signing.trees.signer.public.set;
        let mut fors = [0; MOST_FORS_SIG_LEN];
        let fors = &mut fors[..fors_sig_len(set)];
        let mut signed = [0; MOST_SIGNED_LEN];
        let signed = &mut signed[..set.d() as usize * set.n()];
        let mut paths = [0; MOST_PATHS_LEN];
        let paths = &mut paths[..set.d() as usize * (set.hp() as usize * set.n())];
        if !self.judge(fors, signed, paths) {
            return false;
        }
        let judged = Judged { answered: self, sig_fors: fors, signed, paths };
        judged.put_signature(out);
        true
    }
}

/// Writes the signature that `start` begins, `sig_len` bytes, from the answers of all its jobs, end to end in the order
/// of the jobs. If each answer is that of `sign_job`, these are the bytes of `Form::sign` of `slh_core`. For any
/// answers, the written bytes are a valid signature of the message of `start`, under this key.
///
/// The answers may be any bytes. Refused, with nothing written, in this order: `BadAnswersLength` if they are not
/// `answers_len`; `BadStart` if `start` does not have its tag under this key; `AnswersDisagree` if they don't fit
/// together. All checks are before the first write, and the compared values are the signed ones.
pub fn sign_join(
    levels: &Levels,
    sk: &SecretKey,
    start: &[u8],
    answers: &[u8],
    out: &mut [u8],
) -> Result<(), JobFault> {
    if answers.len() != answers_len(levels) {
        return Err(JobFault::BadAnswersLength);
    }
    let start = copy_of_start(start);
    let signer = sk.signer();
    let Some(answered) = AllAnswers::new(levels, sk, &signer, start.as_slice(), answers) else {
        return Err(JobFault::BadStart);
    };
    if answered.join(out) { Ok(()) } else { Err(JobFault::AnswersDisagree) }
}
