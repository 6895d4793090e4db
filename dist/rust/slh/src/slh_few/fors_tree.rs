// Made by tools/plain_rust.py from crates/slh_few/src/fors_tree.rt.
//! The trees of FORS (FIPS 205, section 8.2).

use crate::slh_few::context::{HashContext, SigningContext};
use crate::slh_few::fors_parts::MOST_TREES;
use crate::slh_few::heights::{BatchParents, parents_in_turn};
use crate::slh_few::nodes::first_nodes;
use crate::slh_few::place::Seeds;
use crate::slh_params::{Adrs, AdrsType, Node};
use crate::slh_tree::{Climbs, Leaves, Tree};

/// The FORS address of a type, a height and an index.
pub(crate) fn fors_adrs(idx_tree: u64, idx_leaf: u32, kind: AdrsType, height: u32, index: u32) -> Adrs {
    let mut adrs = Adrs::zero();
    adrs.set_tree(idx_tree);
    adrs.set_type_and_clear(kind);
    adrs.set_key_pair(idx_leaf);
    adrs.set_tree_height(height);
    adrs.set_tree_index(index);
    adrs
}

/// The index that node `index` of tree `tree_no` has among the nodes of its height of all trees.
/// A tree has 2 ^ `depth` nodes of that height.
pub(crate) fn index_in_forest(tree_no: u32, depth: u32, index: u32) -> u32 {
    tree_no * (1 << depth) + index
}

/// The place of a FORS tree: tree `tree_no` of the key at leaf `idx_leaf` of tree `idx_tree`.
#[derive(Clone, Copy)]
pub struct ForsPlace {
    pub idx_tree: u64,
    pub idx_leaf: u32,
    pub tree_no: u32,
}

impl ForsPlace {
    /// The address of a type of node `i` of a height at which the tree has 2 ^ `depth` nodes.
    pub(crate) fn adrs(&self, kind: AdrsType, height: u32, depth: u32, i: u32) -> Adrs {
        let index = index_in_forest(self.tree_no, depth, i);
        fors_adrs(self.idx_tree, self.idx_leaf, kind, height, index)
    }
}

/// The nodes of a FORS tree above its leaves, which verifying needs.
pub struct ForsJoins<'c, 'a> {
    pub context: &'c HashContext<'a>,
    pub at: ForsPlace,
}

impl<'a> HashContext<'a> {
    /// Tree `tree_no` of the FORS key at leaf `idx_leaf` of tree `idx_tree`, above its leaves: of height a, with nodes
    /// of n bytes.
    pub fn fors_joins(&self, idx_tree: u64, idx_leaf: u32, tree_no: u32) -> ForsJoins<'_, 'a> {
        let at = ForsPlace { idx_tree, idx_leaf, tree_no };
        ForsJoins { context: self, at }
    }
}

impl<'c, 'a> Climbs for ForsJoins<'c, 'a> {
    fn height(&self) -> u32 {
        self.context.set.a()
    }

    fn join(&self, z: u32, i: u32, l: &Node, r: &Node) -> Node {
        let depth = self.context.set.a() - z;
        let adrs = self.at.adrs(AdrsType::ForsTree, z, depth, i);
        self.context.h(&adrs, l, r)
    }
}

/// So many nodes of a height at least are joined in lanes: fewer are joined one after another.
const LEAST_IN_LANES: u32 = 3;

impl<'c, 'a> BatchParents for ForsJoins<'c, 'a> {
    fn parents(&self, z: u32, first: u32, count: u32, n: usize, below: &[u8]) -> Leaves {
        if let (true, Some(lanes)) = (LEAST_IN_LANES <= count, self.context.lanes()) {
            self.at.parents_from_lanes(lanes, z, first, count as usize, below)
        } else {
            parents_in_turn(self, z, first, count, n, below)
        }
    }
}

/// One of the k FORS trees of a key pair, under a signer's context.
pub struct ForsNodes<'c, 'a> {
    pub(crate) signer: &'c SigningContext<'a>,
    pub(crate) at: ForsPlace,
}

impl<'a> SigningContext<'a> {
    /// Tree `tree_no` of the FORS key at leaf `idx_leaf` of tree `idx_tree`: of height a, with nodes of n bytes.
    pub fn fors_nodes(&self, idx_tree: u64, idx_leaf: u32, tree_no: u32) -> ForsNodes<'_, 'a> {
        let at = ForsPlace { idx_tree, idx_leaf, tree_no };
        ForsNodes { signer: self, at }
    }
}

impl<'c, 'a> ForsNodes<'c, 'a> {
    /// The secret of leaf `i` (Algorithm 14).
    pub(crate) fn secret(&self, i: u32) -> Node {
        let depth = self.signer.public.set.a();
        let adrs = self.at.adrs(AdrsType::ForsPrf, 0, depth, i);
        self.signer.prf(&adrs)
    }
}

impl<'c, 'a> Climbs for ForsNodes<'c, 'a> {
    fn height(&self) -> u32 {
        self.signer.public.set.a()
    }

    fn join(&self, z: u32, i: u32, l: &Node, r: &Node) -> Node {
        let joins = ForsJoins { context: &self.signer.public, at: self.at };
        joins.join(z, i, l, r)
    }
}

impl<'c, 'a> Tree for ForsNodes<'c, 'a> {
    fn leaf(&self, i: u32) -> Node {
        let public = &self.signer.public;
        let adrs = self.at.adrs(AdrsType::ForsTree, 0, public.set.a(), i);
        public.f(&adrs, &self.secret(i))
    }

    fn leaves(&self, first: u32, count: u32) -> Leaves {
        let signer = self.signer;
        let leaves = self.at.leaf_lanes(signer.lanes(), signer.sk_seed, first);
        first_nodes(&leaves, signer.public.set.n(), count as usize)
    }
}

/// One of the k FORS trees of a key pair, by its seeds. Each call makes the midstates anew.
pub struct ForsTree<'a> {
    pub(crate) seeds: Seeds<'a>,
    pub(crate) at: ForsPlace,
}

impl<'a> ForsTree<'a> {
    /// Tree `tree_no` of the FORS key at leaf `idx_leaf` of tree `idx_tree`: of height a, with nodes
    /// of n bytes.
    pub fn new(seeds: &Seeds<'a>, idx_tree: u64, idx_leaf: u32, tree_no: u32) -> Self {
        let at = ForsPlace { idx_tree, idx_leaf, tree_no };
        ForsTree { seeds: *seeds, at }
    }
}

impl<'a> Climbs for ForsTree<'a> {
    fn height(&self) -> u32 {
        self.seeds.set.a()
    }

    fn join(&self, z: u32, i: u32, l: &Node, r: &Node) -> Node {
        let context = HashContext::new(self.seeds.set, self.seeds.pk_seed);
        let joins = ForsJoins { context: &context, at: self.at };
        joins.join(z, i, l, r)
    }
}

impl<'a> Tree for ForsTree<'a> {
    fn leaf(&self, i: u32) -> Node {
        let signer = SigningContext::new(&self.seeds);
        let nodes = ForsNodes { signer: &signer, at: self.at };
        nodes.leaf(i)
    }
}
