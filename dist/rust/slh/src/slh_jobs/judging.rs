// Made by tools/plain_rust.py from crates/slh_jobs/src/judging.rt.
//! The check that the answers of all jobs fit together (ours).

use crate::slh_jobs::all_answers::AllAnswers;
use crate::slh_jobs::answer_bytes::{MOST_NODES_LEN, TreeRanges, are_judged};
use crate::slh_jobs::jobs::ranges;
use crate::slh_jobs::upper_tree::{put_auth, xmss_joins};
use crate::slh_core::are_same;
use crate::slh_few::{MOST_XMSS_SIG_LEN, fors_part_len, wots_sig_len, xmss_sig_len};
use crate::slh_params::{Node, copy_of, put_node};
use crate::slh_subtrees::{JobTree, MOST_ROOTS_LEN, roots_len};

impl<'a> AllAnswers<'a> {
    /// Writes the path of a tree's signing leaf, and returns the root that the nodes of the tree's ranges give; `None`
    /// if one of these has not the tag of its job. The nodes are read once: in this one pass they are copied, compared
    /// and hashed.
    // The copies take 8 KB of the stack, which are released before WOTS+ keys are hashed.
    #[inline(never)]
    fn put_judged_path(&self, tree: JobTree, out: &mut [u8]) -> Option<Node> {
        let trees = &self.signing.trees;
        let given = self.of_kind(tree);
        let first = self.first(tree);
        let job = self.signing.levels.first_job(tree);
        let mut copies = [0; MOST_NODES_LEN];
        let copies = &mut copies[..ranges(given.shape.levels) as usize * given.shape.n];
        if !are_judged(given, first, &self.tags, job, copies) {
            return None;
        }
        let own = TreeRanges { given: *given, first };
        let leaf = trees.leaf(tree);
        let context = &trees.signer.public;
        Some(match tree {
            JobTree::Xmss(layer) => {
                let at = trees.layer_place(layer);
                let xmss = xmss_joins(context, layer, at.tree);
                put_auth(&xmss, &own, leaf, copies, out)
            }
            JobTree::Fors(number) => {
                let (idx_tree, idx_leaf) = (trees.idx_tree, trees.idx_leaf);
                let fors = context.fors_joins(idx_tree, idx_leaf, number);
                put_auth(&fors, &own, leaf, copies, out)
            }
        })
    }

    /// Writes a FORS tree's part of the signature, and returns the root that the tree's ranges give; `None` if one of
    /// their nodes does not have its tag.
    fn put_fors_part(&self, number: u32, part: &mut [u8]) -> Option<Node> {
        let (secret, auth) = part.split_at_mut(self.signing.trees.signer.public.set.n());
        secret.copy_from_slice(self.rest(JobTree::Fors(number)));
        self.put_judged_path(JobTree::Fors(number), auth)
    }

    /// The same, written from `start` on.
    fn put_fors_part_at(&self, number: u32, out: &mut [u8], start: usize) -> Option<Node> {
        let end = start + fors_part_len(self.signing.trees.signer.public.set);
        self.put_fors_part(number, &mut out[start..end])
    }

    /// Writes the FORS signature, and the roots that the ranges of its trees give, n bytes each. Whether each node of
    /// these ranges has its tag.
    fn put_fors(&self, sig_fors: &mut [u8], tops: &mut [u8]) -> bool {
        let set = self.signing.trees.signer.public.set;
        let (n, size) = (set.n(), fors_part_len(set));
        for j in 0..set.k() {
            let Some(root) = self.put_fors_part_at(j, sig_fors, j as usize * size) else {
                return false;
            };
            put_node(tops, j as usize * n, &root);
        }
        true
    }

    /// Whether the secret and the path of each FORS tree give the root that the tree's ranges give.
    // The buffer is released before `put_judged_path` runs.
    #[inline(never)]
    fn fors_roots_fit(&self, sig_fors: &[u8], tops: &[u8]) -> bool {
        let trees = &self.signing.trees;
        let mut buffer = [0; MOST_ROOTS_LEN];
        let climbed = &mut buffer[..tops.len()];
        let (idx_tree, idx_leaf) = (trees.idx_tree, trees.idx_leaf);
        let public = &trees.signer.public;
        public.put_fors_roots(idx_tree, idx_leaf, trees.md, sig_fors, climbed);
        are_same(climbed, tops)
    }

    /// Writes the FORS signature, and returns T over the roots that the ranges give; `None` if a node has not its tag,
    /// or in some tree the secret and the path give another root.
    // The buffer is released before WOTS+ keys are hashed.
    #[inline(never)]
    pub(crate) fn judge_fors(&self, sig_fors: &mut [u8]) -> Option<Node> {
        let trees = &self.signing.trees;
        let public = &trees.signer.public;
        let mut buffer = [0; MOST_ROOTS_LEN];
        let tops = &mut buffer[..roots_len(public.set)];
        if !self.put_fors(sig_fors, tops) || !self.fors_roots_fit(sig_fors, tops) {
            return None;
        }
        Some(public.fors_pk(trees.idx_tree, trees.idx_leaf, tops))
    }

    /// Writes the WOTS+ signature of `msg` by the key that signs on the layer, from its checkpoints.
    pub(crate) fn put_wots(&self, layer: u8, msg: &Node, out: &mut [u8]) {
        let trees = &self.signing.trees;
        let checkpoints = self.rest(JobTree::Xmss(layer));
        let at = trees.layer_place(layer);
        trees.signer.public.wots_sign_from_checkpoints(at, msg, checkpoints, out);
    }

    /// Writes the path of the layer's leaf, and returns the root that the ranges of the layer's tree give. `None` if
    /// one of their nodes has not its tag, or the layer signs `msg` and its key and path give another root.
    // The buffer is released before the FORS trees' `put_judged_path` runs.
    #[inline(never)]
    fn layer_root(&self, layer: u8, msg: &Node, path: &mut [u8]) -> Option<Node> {
        let trees = &self.signing.trees;
        let set = trees.signer.public.set;
        let Some(root) = self.put_judged_path(JobTree::Xmss(layer), path) else {
            return None;
        };
        let mut buffer = [0; MOST_XMSS_SIG_LEN];
        let part = &mut buffer[..xmss_sig_len(set)];
        let (wots, auth) = part.split_at_mut(wots_sig_len(set));
        self.put_wots(layer, msg, wots);
        auth.copy_from_slice(path);
        let at = trees.layer_place(layer);
        let signed_root = trees.signer.public.xmss_pk_from_sig(at, msg, part);
        if are_same(signed_root.as_slice(), root.as_slice()) { Some(root) } else { None }
    }

    /// As above, with the path written from `start` on.
    fn layer_root_at(&self, layer: u8, msg: &Node, paths: &mut [u8], start: usize) -> Option<Node> {
        let set = self.signing.trees.signer.public.set;
        let end = start + set.hp() as usize * set.n();
        self.layer_root(layer, msg, &mut paths[start..end])
    }

    /// Writes the value that each layer signs, n bytes each, and the path of its leaf. True if each node has its tag,
    /// the root from the ranges of each layer's tree is that from the key and the path, and the top tree's root is
    /// PK.root.
    pub(crate) fn judge_layers(&self, pk_fors: &Node, signed: &mut [u8], paths: &mut [u8]) -> bool {
        let signing = &self.signing;
        let set = signing.trees.signer.public.set;
        let n = set.n();
        let path_len = set.hp() as usize * n;
        let mut msg = copy_of(pk_fors);
        for layer in 0..set.d() as u8 {
            put_node(signed, layer as usize * n, &msg);
            let start = layer as usize * path_len;
            let Some(root) = self.layer_root_at(layer, &msg, paths, start) else {
                return false;
            };
            msg = root;
        }
        are_same(msg.as_slice(), signing.sk.pk_root())
    }

    /// Whether the answers fit together. If they do, the FORS signature, the value that each layer signs and the path
    /// of each layer's leaf are written.
    pub(crate) fn judge(&self, sig_fors: &mut [u8], signed: &mut [u8], paths: &mut [u8]) -> bool {
        let Some(pk_fors) = self.judge_fors(sig_fors) else {
            return false;
        };
        self.judge_layers(&pk_fors, signed, paths)
    }
}
