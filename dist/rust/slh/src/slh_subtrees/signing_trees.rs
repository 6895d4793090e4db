// Made by tools/plain_rust.py from crates/slh_subtrees/src/signing_trees.rt.
//! The inputs of the trees of one signature (FIPS 205, Algorithm 19): set, seeds, message digest and signing leaves.

use crate::slh_subtrees::gathered_tree::{GatheredTree, gathered};
use crate::slh_subtrees::hashed_range::HashedRange;
use crate::slh_subtrees::range::JobTree;
use crate::slh_few::{MOST_LAYERS, MOST_TREES, Place, SigningContext, fors_indices, layer_places};
use crate::slh_params::Node;
use crate::slh_tree::{Cover, PathRec};

/// The inputs of the trees of one signature: the seeds, the place of the key at layer 0 that signs, and the part of the
/// message digest that FORS signs.
pub struct SigningTrees<'a> {
    /// The parameter set, and SK.seed and PK.seed of n bytes each.
    pub signer: &'a SigningContext<'a>,
    /// The tree of layer 0.
    pub idx_tree: u64,
    /// Its leaf.
    pub idx_leaf: u32,
    /// The part of the message digest that FORS signs, of md_len bytes.
    pub md: &'a [u8],
    places: [Place; MOST_LAYERS],
    indices: [u32; MOST_TREES],
}

impl<'a> SigningTrees<'a> {
    /// The trees of the signature by the key at leaf `idx_leaf` of tree `idx_tree`, of a digest whose first part is
    /// `md`, of md_len bytes.
    pub fn new(signer: &'a SigningContext<'a>, idx_tree: u64, idx_leaf: u32, md: &'a [u8]) -> SigningTrees<'a> {
        let set = signer.public.set;
        SigningTrees {
            signer,
            idx_tree,
            idx_leaf,
            md,
            places: layer_places(set, idx_tree, idx_leaf),
            indices: fors_indices(set, md),
        }
    }

    /// Whether the leaf that signs on a layer is one of those from `lo` to `hi`, `hi` left out.
    pub fn signs_in(&self, layer: u8, lo: u32, hi: u32) -> bool {
        (lo..hi).contains(&self.layer_place(layer).pair)
    }

    /// The result of the leaves from `lo` to before `hi` of a tree.
    pub fn hashed(&self, tree: JobTree, lo: u32, hi: u32) -> HashedRange {
        let signer = self.signer;
        let mut path = PathRec::for_leaf(tree.height(signer.public.set), self.leaf(tree));
        let cover = match tree {
            JobTree::Xmss(layer) => {
                let at = self.layer_place(layer);
                signer.xmss_range(layer, at.tree, lo, hi, &mut path)
            }
            JobTree::Fors(number) => {
                let (idx_tree, idx_leaf) = (self.idx_tree, self.idx_leaf);
                signer.fors_range(idx_tree, idx_leaf, number, lo, hi, &mut path)
            }
        };
        HashedRange { cover, path }
    }

    /// The result of the leaves from `lo` to before `hi` of the XMSS tree of a layer. Writes the checkpoints of the key
    /// that signs there, `key_checkpoints_len` bytes. If its leaf is among these, no chain is computed twice.
    pub fn hashed_with_checkpoints(&self, layer: u8, lo: u32, hi: u32, checkpoints: &mut [u8]) -> HashedRange {
        let at = self.layer_place(layer);
        let signer = self.signer;
        let mut path = PathRec::for_leaf(signer.public.set.hp(), at.pair);
        let cover = signer.xmss_range_with_checkpoints(at, lo, hi, checkpoints, &mut path);
        HashedRange { cover, path }
    }

    /// The node of height `z` at index `i` of a tree, n bytes, from the leaves below it (FIPS 205, Algorithms 9 and
    /// 15).
    pub fn node(&self, tree: JobTree, z: u32, i: u32) -> Node {
        let signer = self.signer;
        match tree {
            JobTree::Xmss(layer) => signer.xmss_node(layer, self.layer_place(layer).tree, z, i),
            JobTree::Fors(number) => signer.fors_node(self.idx_tree, self.idx_leaf, number, z, i),
        }
    }

    /// The place at a layer: the tree there, and the leaf of it whose key signs (FIPS 205, Algorithm 12, lines 7 and
    /// 8).
    pub fn layer_place(&self, layer: u8) -> Place {
        self.places[layer as usize]
    }

    /// The leaf of FORS tree `number` that the digest asks for (FIPS 205, Algorithm 16, line 2).
    pub fn fors_index(&self, number: u32) -> u32 {
        self.indices[number as usize]
    }

    /// The leaf of the tree whose path is in the signature.
    pub fn leaf(&self, tree: JobTree) -> u32 {
        match tree {
            JobTree::Xmss(layer) => self.layer_place(layer).pair,
            JobTree::Fors(number) => self.fors_index(number),
        }
    }

    /// The secret value of the leaf of FORS tree `number` that the digest asks for, n bytes (FIPS 205, Algorithm 14).
    pub fn fors_secret(&self, number: u32) -> Node {
        let index = self.fors_index(number);
        self.signer.fors_secret(self.idx_tree, self.idx_leaf, number, index)
    }

    /// The root of the tree and the path of its leaf, from the covers and the records of all its ranges.
    pub fn gathered(&self, tree: JobTree, covers: &[Cover], records: &[PathRec]) -> GatheredTree {
        let signer = self.signer;
        match tree {
            JobTree::Xmss(layer) => {
                let at = self.layer_place(layer);
                let xmss = signer.xmss_nodes(layer, at.tree);
                gathered(&xmss, at.pair, covers, records)
            }
            JobTree::Fors(number) => {
                let fors = signer.fors_nodes(self.idx_tree, self.idx_leaf, number);
                gathered(&fors, self.fors_index(number), covers, records)
            }
        }
    }
}
