// Made by tools/plain_rust.py from crates/slh_few/src/hypertree.rt.
//! The hypertree: layers of XMSS trees, each key of which signs the root of a tree below
//! (FIPS 205, section 7).

use crate::slh_few::context::{HashContext, SigningContext};
use crate::slh_few::lanes::{put_roots_in_lanes, sign_giving_leaf};
use crate::slh_few::nodes::first_nodes;
use crate::slh_few::place::{Place, Public, Seeds};
use crate::slh_few::wots::MOST_WOTS_SIG_LEN;
use crate::slh_lanes::{GROUP, node_lanes};
use crate::slh_params::{Node, ParamSet, copy_of};
use crate::slh_tree::{Leaves, climb};

/// The place one layer up, whose key signs the root of this place's tree.
pub(crate) fn place_above(set: ParamSet, at: Place, layer: u8) -> Place {
    let leaves = 1 << set.hp();
    Place { layer, tree: at.tree / leaves, pair: (at.tree % leaves) as u32 }
}

/// The place at a layer (Algorithm 12, lines 7 and 8): the tree there that is above leaf `idx_leaf` of tree `idx_tree`
/// of layer 0, and its leaf.
pub fn layer_place(set: ParamSet, idx_tree: u64, idx_leaf: u32, layer: u8) -> Place {
    let mut at = Place { layer: 0, tree: idx_tree, pair: idx_leaf };
    for below in 0..layer {
        at = place_above(set, at, below + 1);
    }
    at
}

/// At least the layers of any set.
pub const MOST_LAYERS: usize = 65;

/// The places of all d layers, from layer 0 on (Algorithm 12, lines 7 and 8): the trees above leaf `idx_leaf` of tree
/// `idx_tree` of layer 0, and the leaf of each. After the d-th, the place at layer 0 is repeated.
pub fn layer_places(set: ParamSet, idx_tree: u64, idx_leaf: u32) -> [Place; MOST_LAYERS] {
    let mut at = Place { layer: 0, tree: idx_tree, pair: idx_leaf };
    let mut places = [at; MOST_LAYERS];
    for layer in 0..set.d() as u8 {
        places[layer as usize] = at;
        at = place_above(set, at, layer + 1);
    }
    places
}

/// At least the length of the signature of one layer in any set: the values of its chains, and a path of at
/// most 12 nodes.
pub const MOST_XMSS_SIG_LEN: usize = MOST_WOTS_SIG_LEN + 12 * 32;

/// The length of the signature of one layer: (len + h') * n bytes.
pub fn xmss_sig_len(set: ParamSet) -> usize {
    (set.len() + set.hp() as usize) * set.n()
}

impl<'a> SigningContext<'a> {
    /// Writes the signature of one layer from `start` on.
    fn put_layer(&self, at: Place, msg: &Node, out: &mut [u8], start: usize) {
        let end = start + xmss_sig_len(self.public.set);
        self.xmss_sign(at, msg, &mut out[start..end]);
    }

    /// Writes the signature of one layer from `start` on, and gives the root of the layer's tree, which the next layer
    /// signs.
    fn sign_layer(&self, at: Place, msg: &Node, out: &mut [u8], start: usize) -> Node {
        let set = self.public.set;
        let end = start + xmss_sig_len(set);
        let sig = &mut out[start..end];
        let leaf = sign_giving_leaf(self, at, msg, sig);
        let (_wots, auth) = sig.split_at(set.len() * set.n());
        let tree = self.xmss_nodes(at.layer, at.tree);
        climb(&tree, at.pair, &leaf, auth)
    }

    /// Writes the signature of a message of n bytes by leaf `idx_leaf` of tree `idx_tree` (Algorithm 12). These are the
    /// XMSS signatures of layers 0 to d - 1, (h + d * len) * n bytes. The root that it gives is that of the top tree.
    pub fn ht_sign(&self, idx_tree: u64, idx_leaf: u32, msg: &Node, out: &mut [u8]) {
        let set = self.public.set;
        let size = xmss_sig_len(set);
        let top = set.d() as u8 - 1;
        let mut at = Place { layer: 0, tree: idx_tree, pair: idx_leaf };
        let mut root = copy_of(msg);
        for layer in 0..top {
            root = self.sign_layer(at, &root, out, layer as usize * size);
            at = place_above(set, at, layer + 1);
        }
        // Nothing signs the root of the top tree, so it is not computed.
        self.put_layer(at, &root, out, top as usize * size);
    }
}

/// Writes the signature of a message of n bytes by leaf `idx_leaf` of tree `idx_tree` (Algorithm 12). These are the
/// XMSS signatures of layers 0 to d - 1, (h + d * len) * n bytes. The root that it gives is that of the top tree.
pub fn ht_sign(seeds: &Seeds, idx_tree: u64, idx_leaf: u32, msg: &Node, out: &mut [u8]) {
    SigningContext::new(seeds).ht_sign(idx_tree, idx_leaf, msg, out);
}

/// The root that layer `layer` of a signature gives.
fn root_from(context: &HashContext, at: Place, msg: &Node, sig: &[u8], layer: usize) -> Node {
    let size = xmss_sig_len(context.set);
    let start = layer * size;
    context.xmss_pk_from_sig(at, msg, &sig[start..start + size])
}

/// The root of the top tree that a signature of a message of n bytes gives, of (h + d * len) * n bytes itself (Algorithm
/// 13, lines 1 to 12).
pub fn ht_root_from_sig(context: &HashContext, idx_tree: u64, idx_leaf: u32, msg: &Node, sig: &[u8]) -> Node {
    let mut at = Place { layer: 0, tree: idx_tree, pair: idx_leaf };
    let mut root = copy_of(msg);
    for layer in 0..context.set.d() as u8 {
        root = root_from(context, at, &root, sig, layer as usize);
        at = place_above(context.set, at, layer + 1);
    }
    root
}

impl<'a> HashContext<'a> {
    /// Whether a signature of a message of n bytes, of (h + d * len) * n bytes itself, gives this root of the top tree
    /// (Algorithm 13).
    pub fn ht_verify(&self, root: &[u8], idx_tree: u64, idx_leaf: u32, msg: &Node, sig: &[u8]) -> bool {
        let node = ht_root_from_sig(self, idx_tree, idx_leaf, msg, sig);
        node.as_slice() == root
    }
}

/// A signature of a message of n bytes, of (h + d * len) * n bytes itself, by leaf `idx_leaf` of tree `idx_tree`.
#[derive(Clone, Copy)]
pub struct HtSignature<'c, 'a> {
    /// The set and the PK.seed.
    pub context: &'c HashContext<'a>,
    pub idx_tree: u64,
    pub idx_leaf: u32,
    pub msg: &'c Node,
    pub sig: &'c [u8],
}

/// The roots of the top trees that eight signatures under one set give, n bytes each (Algorithm 13, lines 1 to 12). T
/// and H of all eight are hashed side by side, one in each lane, if the build has lanes for both.
pub fn ht_roots_from_sigs(set: ParamSet, signed: &[HtSignature; GROUP]) -> Leaves {
    let mut roots = node_lanes(&[]);
    if put_roots_in_lanes(set, signed, &mut roots) {
        first_nodes(&roots, set.n(), GROUP)
    } else {
        roots_in_turn(set, signed)
    }
}

/// The same roots, one after another.
fn roots_in_turn(set: ParamSet, signed: &[HtSignature; GROUP]) -> Leaves {
    let mut roots = Leaves::new();
    for j in 0..GROUP {
        let x = &signed[j];
        roots.push(ht_root_from_sig(x.context, x.idx_tree, x.idx_leaf, x.msg, x.sig));
    }
    roots
}

/// Whether a signature of a message of n bytes, of (h + d * len) * n bytes itself, gives this root
/// of the top tree (Algorithm 13).
pub fn ht_verify(public: &Public, root: &[u8], idx_tree: u64, idx_leaf: u32, msg: &Node, sig: &[u8]) -> bool {
    let context = HashContext::new(public.set, public.pk_seed);
    context.ht_verify(root, idx_tree, idx_leaf, msg, sig)
}
