// Made by tools/plain_rust.py from crates/slh_few/src/xmss.rt.
//! XMSS: a tree of WOTS+ keys (FIPS 205, section 6).

use crate::slh_few::context::{HashContext, SigningContext};
use crate::slh_few::lanes::sign_giving_leaf;
use crate::slh_few::place::{Place, Public, Seeds};
use crate::slh_few::xmss_tree::XmssJoins;
use crate::slh_params::Node;
use crate::slh_tree::{climb, node};

impl<'a> SigningContext<'a> {
    /// xmss_node (Algorithm 9): the node of height `z` at index `i` of tree `tree` of layer `layer`, n bytes, from the
    /// leaves below it.
    pub fn xmss_node(&self, layer: u8, tree: u64, z: u32, i: u32) -> Node {
        node(&self.xmss_nodes(layer, tree), z, i)
    }

    /// Writes the signature of a message of n bytes: that of the leaf's WOTS+ key, then the leaf's path,
    /// (len + h') * n bytes (Algorithm 10). The root that the signature gives is the tree's.
    pub fn xmss_sign(&self, at: Place, msg: &Node, out: &mut [u8]) {
        sign_giving_leaf(self, at, msg, out);
    }
}

impl<'a> HashContext<'a> {
    /// The root that a signature of a message of n bytes gives: n bytes (Algorithm 11).
    pub fn xmss_pk_from_sig(&self, at: Place, msg: &Node, sig: &[u8]) -> Node {
        let (wots, auth) = sig.split_at(self.set.len() * self.set.n());
        let leaf = self.wots_pk_from_sig(at, msg, wots);
        let joins = XmssJoins { context: self, layer: at.layer, tree: at.tree };
        climb(&joins, at.pair, &leaf, auth)
    }
}

/// xmss_node (Algorithm 9): the node of height `z` at index `i` of tree `tree` of layer `layer`, n bytes, from the
/// leaves below it.
pub fn xmss_node(seeds: &Seeds, layer: u8, tree: u64, z: u32, i: u32) -> Node {
    SigningContext::new(seeds).xmss_node(layer, tree, z, i)
}

/// Writes the signature of a message of n bytes: that of the leaf's WOTS+ key, then the leaf's path,
/// (len + h') * n bytes (Algorithm 10). The root that the signature gives is the tree's.
pub fn xmss_sign(seeds: &Seeds, at: Place, msg: &Node, out: &mut [u8]) {
    SigningContext::new(seeds).xmss_sign(at, msg, out);
}

/// The root that a signature of a message of n bytes gives: n bytes (Algorithm 11).
pub fn xmss_pk_from_sig(public: &Public, at: Place, msg: &Node, sig: &[u8]) -> Node {
    HashContext::new(public.set, public.pk_seed).xmss_pk_from_sig(at, msg, sig)
}
