// Made by tools/plain_rust.py from crates/slh_few/src/xmss_tree.rt.
//! The trees of XMSS (FIPS 205, section 6.1).

use crate::slh_few::context::{HashContext, SigningContext};
use crate::slh_few::heights::{BatchParents, parents_in_turn};
use crate::slh_few::lanes::{Nothing, eight_keys};
use crate::slh_few::place::{Place, Seeds};
use crate::slh_few::wots::wots_pk;
use crate::slh_lanes::GROUP;
use crate::slh_params::{Adrs, AdrsType, Node, copy_of};
use crate::slh_tree::{Climbs, Leaves, Tree};

/// The nodes of an XMSS tree above its leaves, which verifying needs: tree `tree` of layer `layer`.
pub struct XmssJoins<'c, 'a> {
    pub context: &'c HashContext<'a>,
    pub layer: u8,
    pub tree: u64,
}

impl<'c, 'a> Climbs for XmssJoins<'c, 'a> {
    fn height(&self) -> u32 {
        self.context.set.hp()
    }

    fn join(&self, z: u32, i: u32, l: &Node, r: &Node) -> Node {
        let mut adrs = Adrs::zero();
        adrs.set_layer(self.layer);
        adrs.set_tree(self.tree);
        adrs.set_type_and_clear(AdrsType::Tree);
        adrs.set_tree_height(z);
        adrs.set_tree_index(i);
        self.context.h(&adrs, l, r)
    }
}

impl<'c, 'a> BatchParents for XmssJoins<'c, 'a> {
    fn parents(&self, z: u32, first: u32, count: u32, n: usize, below: &[u8]) -> Leaves {
        parents_in_turn(self, z, first, count, n, below)
    }
}

/// One tree of a layer of the hypertree under a signer's context. Its leaves are WOTS+ public keys (Algorithm 9), of
/// which some, one after another, may be known before.
pub struct XmssNodes<'c, 'a> {
    signer: &'c SigningContext<'a>,
    layer: u8,
    tree: u64,
    first: u32,
    known: Leaves,
}

impl<'a> SigningContext<'a> {
    /// Tree `tree` of layer `layer`: of height h', with nodes of n bytes.
    pub fn xmss_nodes(&self, layer: u8, tree: u64) -> XmssNodes<'_, 'a> {
        let at = Place { layer, tree, pair: 0 };
        self.xmss_nodes_knowing(at, Leaves::new())
    }

    /// The tree over a place, of which the leaves from the place on are `known`.
    pub(crate) fn xmss_nodes_knowing(&self, at: Place, known: Leaves) -> XmssNodes<'_, 'a> {
        XmssNodes { signer: self, layer: at.layer, tree: at.tree, first: at.pair, known }
    }
}

impl<'c, 'a> XmssNodes<'c, 'a> {
    /// Whether leaf `i` was made before.
    fn knows(&self, i: u32) -> bool {
        self.first <= i && i - self.first < self.known.len() as u32
    }

    /// Whether none of the leaves from `first` on, as many as `count`, was made before.
    fn knows_none(&self, first: u32, count: u32) -> bool {
        if self.first <= first { self.known.len() as u32 <= first - self.first } else { count <= self.first - first }
    }
}

impl<'c, 'a> Climbs for XmssNodes<'c, 'a> {
    fn height(&self) -> u32 {
        self.signer.public.set.hp()
    }

    fn join(&self, z: u32, i: u32, l: &Node, r: &Node) -> Node {
        let joins = XmssJoins { context: &self.signer.public, layer: self.layer, tree: self.tree };
        joins.join(z, i, l, r)
    }
}

impl<'c, 'a> Tree for XmssNodes<'c, 'a> {
    fn leaf(&self, i: u32) -> Node {
        if self.knows(i) {
            copy_of(&self.known[(i - self.first) as usize])
        } else {
            self.signer.wots_pk(Place { layer: self.layer, tree: self.tree, pair: i })
        }
    }

    fn leaves(&self, first: u32, count: u32) -> Leaves {
        // For the prover: a tree has a height of at most 14.
        let _highest = self.height();
        if count == GROUP as u32 && self.knows_none(first, count) {
            let at = Place { layer: self.layer, tree: self.tree, pair: first };
            let lanes = self.signer.lanes();
            return eight_keys(lanes, self.signer.sk_seed, at, &Nothing, &mut []);
        }
        let mut leaves = Leaves::new();
        for j in 0..count {
            leaves.push(self.leaf(first + j));
        }
        leaves
    }
}

/// One tree of a layer of the hypertree, by its seeds. Each call makes the midstates anew.
pub struct XmssTree<'a> {
    seeds: Seeds<'a>,
    layer: u8,
    tree: u64,
}

impl<'a> XmssTree<'a> {
    /// Tree `tree` of layer `layer`: of height h', with nodes of n bytes.
    pub fn new(seeds: &Seeds<'a>, layer: u8, tree: u64) -> Self {
        XmssTree { seeds: *seeds, layer, tree }
    }
}

impl<'a> Climbs for XmssTree<'a> {
    fn height(&self) -> u32 {
        self.seeds.set.hp()
    }

    fn join(&self, z: u32, i: u32, l: &Node, r: &Node) -> Node {
        let context = HashContext::new(self.seeds.set, self.seeds.pk_seed);
        let joins = XmssJoins { context: &context, layer: self.layer, tree: self.tree };
        joins.join(z, i, l, r)
    }
}

impl<'a> Tree for XmssTree<'a> {
    fn leaf(&self, i: u32) -> Node {
        let at = Place { layer: self.layer, tree: self.tree, pair: i };
        wots_pk(&self.seeds, at)
    }
}
