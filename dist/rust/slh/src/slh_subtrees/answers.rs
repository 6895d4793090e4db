// Made by tools/plain_rust.py from crates/slh_subtrees/src/answers.rt.
//! The parts of a signature, from the answers of all jobs (ours).

use crate::slh_subtrees::range::JobTree;
use crate::slh_subtrees::signing_trees::SigningTrees;
use crate::slh_few::{MOST_TREES, fors_part_len, wots_sig_len, xmss_sig_len};
use crate::slh_params::{Node, ParamSet, copy_of, put_node};

/// The values of the trees of a signature, from the answers of all jobs, in any representation.
pub trait Answers {
    /// Writes the secret value of the leaf of FORS tree `number` that the digest asks for, n bytes.
    fn put_secret(&self, number: u32, out: &mut [u8]);

    /// Writes the path of the tree's signing leaf, n bytes for each height, and returns the root, of n bytes.
    fn put_signing_path(&self, tree: JobTree, out: &mut [u8]) -> Node;

    /// The checkpoints of the key that signs on the layer, `key_checkpoints_len` bytes.
    fn chains(&self, layer: u8) -> &[u8];
}

/// Writes the part of FORS tree `number` in the signature, the secret value and the path (FIPS 205, Algorithm 16), and
/// returns the tree's root.
fn fors_part<A: Answers>(answers: &A, set: ParamSet, number: u32, out: &mut [u8]) -> Node {
    let (secret, auth) = out.split_at_mut(set.n());
    answers.put_secret(number, secret);
    answers.put_signing_path(JobTree::Fors(number), auth)
}

/// As `fors_part`, from `start` on.
fn put_fors_part<A: Answers>(answers: &A, set: ParamSet, number: u32, out: &mut [u8], start: usize) -> Node {
    let end = start + fors_part_len(set);
    fors_part(answers, set, number, &mut out[start..end])
}

/// At least the length of the roots of all FORS trees in any set, of 32 bytes each.
pub const MOST_ROOTS_LEN: usize = MOST_TREES * 32;

/// The length of the roots of all FORS trees, in bytes.
pub fn roots_len(set: ParamSet) -> usize {
    set.k() as usize * set.n()
}

/// Writes the FORS signature that the answers make (FIPS 205, Algorithm 16), and the roots that they say, n bytes each.
fn put_fors_parts<A: Answers>(answers: &A, set: ParamSet, out: &mut [u8], roots: &mut [u8]) {
    let (n, size) = (set.n(), fors_part_len(set));
    for j in 0..set.k() {
        let root = put_fors_part(answers, set, j, out, j as usize * size);
        put_node(roots, j as usize * n, &root);
    }
}

/// Writes the FORS signature from the answers (FIPS 205, Algorithm 16). Returns T over the roots that they give
/// (Algorithm 17, lines 21 to 24): for right answers, the FORS public key.
pub fn put_fors<A: Answers>(trees: &SigningTrees, answers: &A, out: &mut [u8]) -> Node {
    let public = &trees.signer.public;
    let mut buffer = [0; MOST_ROOTS_LEN];
    let roots = &mut buffer[..roots_len(public.set)];
    put_fors_parts(answers, public.set, out, roots);
    public.fors_pk(trees.idx_tree, trees.idx_leaf, roots)
}

/// Writes a layer's part of the signature, if its key signs `msg` (FIPS 205, Algorithm 10): the WOTS+ signature, from
/// the key's checkpoints, and the path of the key's leaf. Returns the root that the answers say.
fn layer_part<A: Answers>(trees: &SigningTrees, answers: &A, layer: u8, msg: &Node, out: &mut [u8]) -> Node {
    let public = &trees.signer.public;
    let (wots, auth) = out.split_at_mut(wots_sig_len(public.set));
    let at = trees.layer_place(layer);
    public.wots_sign_from_checkpoints(at, msg, answers.chains(layer), wots);
    answers.put_signing_path(JobTree::Xmss(layer), auth)
}

/// As `layer_part`, from `start` on.
fn put_layer_part<A: Answers>(
    trees: &SigningTrees,
    answers: &A,
    layer: u8,
    msg: &Node,
    out: &mut [u8],
    start: usize,
) -> Node {
    let end = start + xmss_sig_len(trees.signer.public.set);
    layer_part(trees, answers, layer, msg, &mut out[start..end])
}

/// Writes the hypertree signature of `pk_fors` from the answers (FIPS 205, Algorithm 12). Each layer signs the root
/// that they give for the tree below it; layer 0 signs `pk_fors`.
pub fn put_layers<A: Answers>(trees: &SigningTrees, answers: &A, pk_fors: &Node, out: &mut [u8]) {
    let set = trees.signer.public.set;
    let size = xmss_sig_len(set);
    let mut msg = copy_of(pk_fors);
    for layer in 0..set.d() as u8 {
        let start = layer as usize * size;
        msg = put_layer_part(trees, answers, layer, &msg, out, start);
    }
}
