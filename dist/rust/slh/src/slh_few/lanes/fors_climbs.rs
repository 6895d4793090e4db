// Made by tools/plain_rust.py from crates/slh_few/src/lanes/fors_climbs.rt.
//! The roots of FORS trees that a signature gives, in one or two groups of eight lanes (FIPS 205, section 8.4).

use crate::slh_few::context::HashContext;
use crate::slh_few::fors::fors_part_len;
use crate::slh_few::fors_parts::MOST_TREES;
use crate::slh_few::fors_tree::{ForsPlace, fors_adrs, index_in_forest};
use crate::slh_few::lanes::chains::put_lanes;
use crate::slh_few::nodes::chunk_at;
use crate::slh_lanes::{
    GROUP, LaneAdrs, LaneNodes, SeededLanes, Width, Words, adrs_lanes, build_widths, consecutive, node_lanes, parity,
    pick_nodes, set_hashes, set_lane,
};
use crate::slh_params::{AdrsType, ParamSet};
use crate::vectors::*;

/// Trees one after another, one in each lane of a group: the first, their number, and the indices that the leaves asked
/// for have among those of all trees.
#[derive(Clone, Copy)]
pub(crate) struct TreeGroup {
    pub(crate) first: ForsPlace,
    pub(crate) used: usize,
    pub(crate) leaves: Words,
}

/// The indices of the nodes of height `z` over leaves of these indices, among those of all trees.
fn indices_over(leaves: Words, z: u32) -> Words {
    leaves >> z
}

impl TreeGroup {
    /// The trees from `first` on, as many as `used`, with their leaves of these indices.
    fn new(set: ParamSet, first: ForsPlace, used: usize, indices: &[u32; MOST_TREES]) -> Self {
        let depth = set.a();
        let mut leaves = [0; GROUP];
        for j in 0..used {
            let tree = first.tree_no + j as u32;
            leaves[j] = index_in_forest(tree, depth, indices[tree as usize]);
        }
        TreeGroup { first, used, leaves: Words::from_array(leaves) }
    }

    /// The addresses of the nodes of height `z` over the leaves.
    fn adrs(&self, z: u32) -> LaneAdrs {
        let first = self.first;
        let adrs = fors_adrs(first.idx_tree, first.idx_leaf, AdrsType::ForsTree, z, 0);
        let mut lanes = adrs_lanes(&adrs);
        set_hashes(&mut lanes, indices_over(self.leaves, z));
        lanes
    }

    /// Node `place` of each tree's part of a signature: 0 is the secret, the path's nodes follow.
    fn part_nodes(&self, set: ParamSet, sig: &[u8], place: usize) -> LaneNodes {
        let n = set.n();
        let size = fors_part_len(set);
        let mut nodes = node_lanes(&[]);
        for j in 0..self.used {
            let own = chunk_at(sig, size, self.first.tree_no as usize + j);
            set_lane(&mut nodes, j, chunk_at(own, n, place));
        }
        nodes
    }

    /// Puts the left ones of the nodes of height `z` and of their siblings in place of the nodes, and gives the right
    /// ones: the children of the nodes of the next height.
    fn pair_up(&self, set: ParamSet, z: u32, sig: &[u8], nodes: &mut LaneNodes) -> LaneNodes {
        let siblings = self.part_nodes(set, sig, z as usize + 1);
        let right_children = parity(indices_over(self.leaves, z));
        let ones = Words::splat(1);
        let right = pick_nodes(right_children, ones, &siblings, nodes);
        *nodes = pick_nodes(right_children, ones, nodes, &siblings);
        right
    }

    /// Writes the nodes at their trees' places.
    fn put_nodes(&self, n: usize, nodes: &LaneNodes, out: &mut [u8]) {
        let trees = consecutive(self.first.tree_no).to_array();
        put_lanes(out, n, &trees, nodes, self.used);
    }
}

/// The leaves of both groups: F of the secrets. If the second group is empty, the first is hashed alone.
fn leaves(lanes: &SeededLanes, sig: &[u8], x: &TreeGroup, y: &TreeGroup) -> [LaneNodes; 2] {
    let set = lanes.set;
    let mut first = [x.part_nodes(set, sig, 0)];
    if y.used == 0 {
        lanes.f(&[x.adrs(0)], &mut first);
        let [alone] = first;
        return [alone, node_lanes(&[])];
    }
    let [x_nodes] = first;
    let mut nodes = [x_nodes, y.part_nodes(set, sig, 0)];
    lanes.f(&[x.adrs(0), y.adrs(0)], &mut nodes);
    nodes
}

/// Climbs in both groups from the nodes of height `z` to those of the next: H of them and their siblings. If the second
/// group is empty, the first is hashed alone.
fn climb_on(lanes: &SeededLanes, z: u32, sig: &[u8], x: &TreeGroup, y: &TreeGroup, nodes: &mut [LaneNodes; 2]) {
    let [mut x_nodes, mut y_nodes] = *nodes;
    let x_right = x.pair_up(lanes.set, z, sig, &mut x_nodes);
    if y.used == 0 {
        let mut alone = [x_nodes];
        lanes.h(&[x.adrs(z + 1)], &mut alone, &[x_right]);
        let [x_nodes] = alone;
        *nodes = [x_nodes, y_nodes];
    } else {
        let y_right = y.pair_up(lanes.set, z, sig, &mut y_nodes);
        *nodes = [x_nodes, y_nodes];
        lanes.h(&[x.adrs(z + 1), y.adrs(z + 1)], nodes, &[x_right, y_right]);
    }
}

/// So many trees at least are climbed in lanes: fewer are climbed one after another.
const LEAST_IN_LANES: u32 = 3;

/// Whether this build climbs a set's trees in lanes. Leaves are hashed by SHA-256 in lanes of 32 bits, and so are nodes
/// if n is 16. If n is 24 or 32, nodes are hashed by SHA-512, in lanes of 64 bits.
pub(crate) fn has_lanes(set: ParamSet) -> bool {
    let widths = build_widths();
    let short = !matches!(widths.short, Width::One);
    let long = !matches!(widths.long, Width::One);
    short && (set.n() == 16 || long)
}

/// How many trees are climbed in lanes: all but one or two after the last group of eight. None if nodes are hashed one
/// after another.
fn trees_in_lanes(set: ParamSet) -> u32 {
    let count = set.k();
    let last = count % GROUP as u32;
    if !has_lanes(set) {
        0
    } else if last < LEAST_IN_LANES {
        count - last
    } else {
        count
    }
}

/// Writes the roots of the trees from `first` on, as many as `used`, at their places among those of all trees
/// (Algorithm 17, lines 3 to 20). They are climbed in two groups.
fn put_roots(
    first: ForsPlace,
    used: usize,
    lanes: &SeededLanes,
    indices: &[u32; MOST_TREES],
    sig: &[u8],
    out: &mut [u8],
) {
    let set = lanes.set;
    let x_used = used.min(GROUP);
    let second =
        ForsPlace { idx_tree: first.idx_tree, idx_leaf: first.idx_leaf, tree_no: first.tree_no + x_used as u32 };
    let x = TreeGroup::new(set, first, x_used, indices);
    let y = TreeGroup::new(set, second, used - x_used, indices);
    let mut nodes = leaves(lanes, sig, &x, &y);
    for z in 0..set.a() {
        climb_on(lanes, z, sig, &x, &y, &mut nodes);
    }
    x.put_nodes(set.n(), &nodes[0], out);
    y.put_nodes(set.n(), &nodes[1], out);
}

/// Writes the roots of the first trees, and gives their number: of all that are climbed in lanes.
pub(crate) fn put_first_roots(
    context: &HashContext,
    idx_tree: u64,
    idx_leaf: u32,
    indices: &[u32; MOST_TREES],
    sig: &[u8],
    out: &mut [u8],
) -> u32 {
    let Some(lanes) = context.lanes() else {
        return 0;
    };
    let count = trees_in_lanes(context.set);
    let most = 2 * GROUP as u32;
    for turn in 0..count.div_ceil(most) {
        let first = ForsPlace { idx_tree, idx_leaf, tree_no: most * turn };
        let used = (count - first.tree_no).min(most) as usize;
        put_roots(first, used, lanes, indices, sig, out);
    }
    count
}
