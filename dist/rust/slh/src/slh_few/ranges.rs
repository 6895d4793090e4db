// Made by tools/plain_rust.py from crates/slh_few/src/ranges.rt.
//! The covers of leaf ranges of XMSS and FORS trees, for a tree that several calls share (ours).

use crate::slh_few::context::SigningContext;
use crate::slh_few::fors_blocks::block_height;
use crate::slh_few::fors_tree::{ForsNodes, ForsPlace};
use crate::slh_few::lanes::{LaneCheckpoints, eight_keys, first_of_eight, lane_among_eight};
use crate::slh_few::place::Place;
use crate::slh_few::xmss_tree::XmssNodes;
use crate::slh_lanes::GROUP;
use crate::slh_tree::{Cover, Leaves, PathRec, hash_range};

/// Whether all eight leaves below the node of height 3 over the leaf at this place are in the range. A tree of fewer
/// leaves has no such range.
fn has_eight_in_range(at: Place, lo: u32, hi: u32) -> bool {
    let first = first_of_eight(at).pair;
    lo <= first && first <= hi && hi - first >= GROUP as u32
}

impl<'a> SigningContext<'a> {
    /// The cover of the leaves from `lo` to `hi`, `hi` left out, of tree `tree` of layer `layer`. The record, of a leaf
    /// of that tree, gains exactly those nodes of its path whose leaves are all in the range.
    pub fn xmss_range(&self, layer: u8, tree: u64, lo: u32, hi: u32, rec: &mut PathRec) -> Cover {
        hash_range(&self.xmss_nodes(layer, tree), lo, hi, rec)
    }

    /// The tree over a place, of which the leaf there is known, and all eight below its node of height 3 if they are in
    /// the range. Into `checkpoints` it writes `key_checkpoints_len` bytes: the checkpoints of the key at the place.
    fn xmss_nodes_with_checkpoints(&self, at: Place, lo: u32, hi: u32, checkpoints: &mut [u8]) -> XmssNodes<'_, 'a> {
        if has_eight_in_range(at, lo, hi) {
            let first = first_of_eight(at);
            let lane = lane_among_eight(at);
            let group = eight_keys(self.lanes(), self.sk_seed, first, &LaneCheckpoints { lane }, checkpoints);
            self.xmss_nodes_knowing(first, group)
        } else {
            let mut known = Leaves::new();
            known.push(self.wots_pk_with_checkpoints(at, checkpoints));
            self.xmss_nodes_knowing(at, known)
        }
    }

    /// The cover that `xmss_range` returns, of the tree over a place. This call also writes the checkpoints of the key
    /// at the place into `checkpoints`, `key_checkpoints_len` bytes. `wots_sign_from_checkpoints` signs from them.
    ///
    /// If the key's leaf is in the range, no chain is computed twice. If the range has all eight leaves below the
    /// leaf's node of height 3, the eight keys are made at once.
    pub fn xmss_range_with_checkpoints(
        &self,
        at: Place,
        lo: u32,
        hi: u32,
        checkpoints: &mut [u8],
        rec: &mut PathRec,
    ) -> Cover {
        let tree = self.xmss_nodes_with_checkpoints(at, lo, hi, checkpoints);
        hash_range(&tree, lo, hi, rec)
    }

    /// The cover of the leaves from `lo` to `hi`, `hi` left out, of FORS tree `tree_no` of the key at leaf `idx_leaf`
    /// of tree `idx_tree`. The record, of a leaf of that FORS tree, gains exactly those nodes of its path whose leaves
    /// are all in the range.
    pub fn fors_range(&self, idx_tree: u64, idx_leaf: u32, tree_no: u32, lo: u32, hi: u32, rec: &mut PathRec) -> Cover {
        let at = ForsPlace { idx_tree, idx_leaf, tree_no };
        let tree = ForsNodes { signer: self, at };
        if let Some(z) = block_height(lo, hi) {
            return tree.hash_block(z, lo, hi, rec);
        }
        hash_range(&tree, lo, hi, rec)
    }
}
