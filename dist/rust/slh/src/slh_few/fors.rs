// Made by tools/plain_rust.py from crates/slh_few/src/fors.rt.
//! FORS, few-time signatures of a message digest (FIPS 205, section 8).

use crate::slh_few::context::{HashContext, SigningContext};
use crate::slh_few::fors_parts::{MOST_TREES, fors_indices};
use crate::slh_few::fors_tree::{ForsJoins, ForsNodes, ForsPlace, fors_adrs};
use crate::slh_few::lanes::put_first_roots;
use crate::slh_few::nodes::{chunk_at, put_chunk};
use crate::slh_few::place::{Public, Seeds};
use crate::slh_params::{AdrsType, Node, ParamSet, node_of, put_node};
use crate::slh_tree::climb;

/// At least the length of a tree's part of a signature in any set: a secret and 14 nodes of 32 bytes.
const MOST_FORS_PART_LEN: usize = (1 + 14) * 32;

/// The length of a tree's part of a signature, a secret and its path: (1 + a) * n bytes.
pub fn fors_part_len(set: ParamSet) -> usize {
    (1 + set.a() as usize) * set.n()
}

impl<'c, 'a> ForsNodes<'c, 'a> {
    /// Writes the path of leaf `i` (Algorithm 16, lines 5 to 9).
    fn put_auth_path(&self, i: u32, out: &mut [u8]) {
        for z in 0..self.signer.public.set.a() {
            let node = self.node(z, (i >> z) ^ 1);
            put_node(out, z as usize * node.len(), &node);
        }
    }

    /// Writes the secret of leaf `i`, then the leaf's path.
    fn sign(&self, i: u32, out: &mut [u8]) {
        let (secret, auth) = out.split_at_mut(self.signer.public.set.n());
        secret.copy_from_slice(&self.secret(i));
        self.put_auth_path(i, auth);
    }

    /// Writes the secret of leaf `i`, then the leaf's path, from `start` on.
    fn put_fors_part(&self, i: u32, out: &mut [u8], start: usize) {
        let end = start + fors_part_len(self.signer.public.set);
        self.sign(i, &mut out[start..end]);
    }
}

impl<'a> SigningContext<'a> {
    /// The secret of leaf `i` of tree `tree_no`, of the key at leaf `idx_leaf` of tree `idx_tree`: n bytes
    /// (Algorithm 14).
    pub fn fors_secret(&self, idx_tree: u64, idx_leaf: u32, tree_no: u32, i: u32) -> Node {
        let at = ForsPlace { idx_tree, idx_leaf, tree_no };
        ForsNodes { signer: self, at }.secret(i)
    }

    /// fors_node (Algorithm 15): a node of a FORS tree, n bytes, from the leaves below it. `z` is its height and `i`
    /// its index in tree `tree_no`. The FORS key is at leaf `idx_leaf` of tree `idx_tree`. The standard numbers the
    /// nodes of all k trees together: its index is tree_no * 2^(a - z) + i.
    pub fn fors_node(&self, idx_tree: u64, idx_leaf: u32, tree_no: u32, z: u32, i: u32) -> Node {
        let at = ForsPlace { idx_tree, idx_leaf, tree_no };
        ForsNodes { signer: self, at }.node(z, i)
    }

    /// Writes the signature of a digest of md_len bytes by the key at leaf `idx_leaf` of tree `idx_tree`: k * (1 + a) *
    /// n bytes (Algorithm 16). They are, for each tree, the secret that the digest selects and its path. The key that
    /// it gives is T over the trees' roots.
    pub fn fors_sign(&self, idx_tree: u64, idx_leaf: u32, md: &[u8], out: &mut [u8]) {
        let set = self.public.set;
        let indices = fors_indices(set, md);
        let size = fors_part_len(set);
        for j in 0..set.k() {
            let at = ForsPlace { idx_tree, idx_leaf, tree_no: j };
            let tree = ForsNodes { signer: self, at };
            tree.put_fors_part(indices[j as usize], out, j as usize * size);
        }
    }
}

impl<'c, 'a> ForsJoins<'c, 'a> {
    /// The root of the tree that its part of a signature gives for leaf `i`.
    fn root_from(&self, i: u32, sig: &[u8]) -> Node {
        let set = self.context.set;
        let (secret, auth) = sig.split_at(set.n());
        let adrs = self.at.adrs(AdrsType::ForsTree, 0, set.a(), i);
        let leaf = self.context.f(&adrs, &node_of(secret));
        climb(self, i, &leaf, auth)
    }

    /// The root of the tree that its part of a whole signature gives for leaf `i`.
    fn root_at(&self, i: u32, sig: &[u8]) -> Node {
        let size = fors_part_len(self.context.set);
        self.root_from(i, chunk_at(sig, size, self.at.tree_no as usize))
    }
}

impl<'a> HashContext<'a> {
    /// Writes the roots of all trees, n bytes each, from a signature of k * (1 + a) * n bytes of a digest of md_len
    /// bytes (Algorithm 17, lines 2 to 20).
    pub fn put_fors_roots(&self, idx_tree: u64, idx_leaf: u32, md: &[u8], sig: &[u8], out: &mut [u8]) {
        let indices = fors_indices(self.set, md);
        let done = put_first_roots(self, idx_tree, idx_leaf, &indices, sig, out);
        for j in done..self.set.k() {
            let at = ForsPlace { idx_tree, idx_leaf, tree_no: j };
            let tree = ForsJoins { context: self, at };
            let root = tree.root_at(indices[j as usize], sig);
            put_chunk(out, self.set.n(), j as usize, &root);
        }
    }

    /// T over the roots of all trees, end to end: the public key of the key at leaf `idx_leaf` of tree `idx_tree`, n
    /// bytes (Algorithm 17, lines 21 to 24).
    pub fn fors_pk(&self, idx_tree: u64, idx_leaf: u32, roots: &[u8]) -> Node {
        let adrs = fors_adrs(idx_tree, idx_leaf, AdrsType::ForsRoots, 0, 0);
        self.t(&adrs, roots, self.set.k() as usize)
    }

    /// The public key that a signature of a digest of md_len bytes, of k * (1 + a) * n bytes itself, gives: n bytes
    /// (Algorithm 17).
    pub fn fors_pk_from_sig(&self, idx_tree: u64, idx_leaf: u32, md: &[u8], sig: &[u8]) -> Node {
        if self.lanes().is_none() {
            return absorbed_roots(self, idx_tree, idx_leaf, md, sig);
        }
        let mut buffer = [0; MOST_FORS_ROOTS_LEN];
        let roots = &mut buffer[..fors_roots_len(self.set)];
        self.put_fors_roots(idx_tree, idx_leaf, md, sig, roots);
        self.fors_pk(idx_tree, idx_leaf, roots)
    }
}

/// The public key that a signature of a digest gives (Algorithm 17). T absorbs the root of each tree as it is reached,
/// so no buffer holds all.
fn absorbed_roots(context: &HashContext, idx_tree: u64, idx_leaf: u32, md: &[u8], sig: &[u8]) -> Node {
    let indices = fors_indices(context.set, md);
    let mut stream = context.t_stream(&fors_adrs(idx_tree, idx_leaf, AdrsType::ForsRoots, 0, 0));
    for j in 0..context.set.k() {
        let at = ForsPlace { idx_tree, idx_leaf, tree_no: j };
        let tree = ForsJoins { context, at };
        stream.absorb(&tree.root_at(indices[j as usize], sig));
    }
    stream.finish()
}

/// At least the length of the roots of all trees in any set: of 32 bytes each.
const MOST_FORS_ROOTS_LEN: usize = MOST_TREES * 32;

/// The length of the roots of all trees: k * n bytes.
fn fors_roots_len(set: ParamSet) -> usize {
    set.k() as usize * set.n()
}

/// fors_node (Algorithm 15): a node of a FORS tree, n bytes, from the leaves below it. `z` is its height and `i` its
/// index in tree `tree_no`. The FORS key is at leaf `idx_leaf` of tree `idx_tree`. The standard numbers the nodes of
/// all k trees together: its index is tree_no * 2^(a - z) + i.
pub fn fors_node(seeds: &Seeds, idx_tree: u64, idx_leaf: u32, tree_no: u32, z: u32, i: u32) -> Node {
    SigningContext::new(seeds).fors_node(idx_tree, idx_leaf, tree_no, z, i)
}

/// Writes the signature of a digest of md_len bytes by the key at leaf `idx_leaf` of tree `idx_tree`: k * (1 + a) * n
/// bytes (Algorithm 16). They are, for each tree, the secret that the digest selects and its path. The key that it
/// gives is T over the trees' roots.
pub fn fors_sign(seeds: &Seeds, idx_tree: u64, idx_leaf: u32, md: &[u8], out: &mut [u8]) {
    SigningContext::new(seeds).fors_sign(idx_tree, idx_leaf, md, out);
}

/// The public key that a signature of a digest of md_len bytes, of k * (1 + a) * n bytes itself,
/// gives: n bytes (Algorithm 17).
pub fn fors_pk_from_sig(public: &Public, idx_tree: u64, idx_leaf: u32, md: &[u8], sig: &[u8]) -> Node {
    let context = HashContext::new(public.set, public.pk_seed);
    context.fors_pk_from_sig(idx_tree, idx_leaf, md, sig)
}
