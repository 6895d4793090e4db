// Made by tools/plain_rust.py from crates/slh_few/src/lanes/fors_nodes.rt.
//! Nodes of a FORS tree in lanes, in one or two groups of eight (FIPS 205, section 8.2).

use crate::slh_few::fors_tree::{ForsNodes, ForsPlace, fors_adrs, index_in_forest};
use crate::slh_few::nodes::{chunk_at, first_nodes};
use crate::slh_lanes::{
    GROUP, LaneAdrs, LaneNodes, SeededLanes, adrs_lanes, consecutive, even_lanes, lane_node, node_lanes, odd_lanes,
    set_hashes, set_lane,
};
use crate::slh_params::{AdrsType, Node, ParamSet};
use crate::slh_tree::{Leaves, node};

impl ForsPlace {
    /// The addresses of a type of the nodes of height `z` from index `first` on, one in each lane.
    fn lane_adrs(&self, set: ParamSet, kind: AdrsType, z: u32, first: u32) -> LaneAdrs {
        let index = index_in_forest(self.tree_no, set.a() - z, first);
        let mut adrs = adrs_lanes(&fors_adrs(self.idx_tree, self.idx_leaf, kind, z, 0));
        set_hashes(&mut adrs, consecutive(index));
        adrs
    }

    /// The leaves of the tree from `first` on, one in each lane: F of their secrets.
    pub(crate) fn leaf_lanes(&self, lanes: &SeededLanes, sk_seed: &[u8], first: u32) -> LaneNodes {
        let mut leaves = lanes.prf(sk_seed, &[self.lane_adrs(lanes.set, AdrsType::ForsPrf, 0, first)]);
        let adrs = self.lane_adrs(lanes.set, AdrsType::ForsTree, 0, first);
        lanes.f(&[adrs], &mut leaves);
        let [leaves] = leaves;
        leaves
    }

    /// Sixteen leaves of the tree from `first` on, in two groups. Since this and `join_sixteen` are not inlined, the
    /// frames of the recursion lack their vectors.
    #[inline(never)]
    fn sixteen_leaves(&self, lanes: &SeededLanes, sk_seed: &[u8], first: u32) -> [LaneNodes; 2] {
        let set = lanes.set;
        let next = first + GROUP as u32;
        let adrs = [self.lane_adrs(set, AdrsType::ForsPrf, 0, first), self.lane_adrs(set, AdrsType::ForsPrf, 0, next)];
        let mut leaves = lanes.prf(sk_seed, &adrs);
        let adrs =
            [self.lane_adrs(set, AdrsType::ForsTree, 0, first), self.lane_adrs(set, AdrsType::ForsTree, 0, next)];
        lanes.f(&adrs, &mut leaves);
        leaves
    }

    /// The nodes of height `z` from index `i` on: H of their children, which are the sixteen nodes of the two.
    fn join_lanes(&self, lanes: &SeededLanes, z: u32, i: u32, left: &LaneNodes, right: &LaneNodes) -> LaneNodes {
        let adrs = self.lane_adrs(lanes.set, AdrsType::ForsTree, z, i);
        let mut nodes = [even_lanes(left, right)];
        lanes.h(&[adrs], &mut nodes, &[odd_lanes(left, right)]);
        let [nodes] = nodes;
        nodes
    }

    /// Puts sixteen nodes of height `z` from index `i` on in place of their first sixteen children. The other sixteen
    /// are those of `next`.
    #[inline(never)]
    fn join_sixteen(&self, lanes: &SeededLanes, z: u32, i: u32, nodes: &mut [LaneNodes; 2], next: &[LaneNodes; 2]) {
        let adrs = [
            self.lane_adrs(lanes.set, AdrsType::ForsTree, z, i),
            self.lane_adrs(lanes.set, AdrsType::ForsTree, z, i + GROUP as u32),
        ];
        let right = [odd_lanes(&nodes[0], &nodes[1]), odd_lanes(&next[0], &next[1])];
        *nodes = [even_lanes(&nodes[0], &nodes[1]), even_lanes(&next[0], &next[1])];
        lanes.h(&adrs, nodes, &right);
    }

    /// Sixteen nodes of height `z` from index `i` on, in two groups, as fors_node makes each (Algorithm 15).
    fn sixteen_nodes(&self, lanes: &SeededLanes, sk_seed: &[u8], z: u32, i: u32) -> [LaneNodes; 2] {
        if z == 0 {
            return self.sixteen_leaves(lanes, sk_seed, i);
        }
        let mut nodes = self.sixteen_nodes(lanes, sk_seed, z - 1, 2 * i);
        let next = self.sixteen_nodes(lanes, sk_seed, z - 1, 2 * i + 2 * GROUP as u32);
        self.join_sixteen(lanes, z, i, &mut nodes, &next);
        nodes
    }

    /// The eight nodes of height `z` from index `i` on.
    fn eight_nodes(&self, lanes: &SeededLanes, sk_seed: &[u8], z: u32, i: u32) -> LaneNodes {
        if z == 0 {
            self.leaf_lanes(lanes, sk_seed, i)
        } else {
            let [left, right] = self.sixteen_nodes(lanes, sk_seed, z - 1, 2 * i);
            self.join_lanes(lanes, z, i, &left, &right)
        }
    }

    /// The node of height `z` at index `i`.
    fn node_from_lanes(&self, lanes: &SeededLanes, sk_seed: &[u8], z: u32, i: u32) -> Node {
        let eight = self.eight_nodes(lanes, sk_seed, z - 3, GROUP as u32 * i);
        let four = self.join_lanes(lanes, z - 2, 4 * i, &eight, &eight);
        let two = self.join_lanes(lanes, z - 1, 2 * i, &four, &four);
        let one = self.join_lanes(lanes, z, i, &two, &two);
        lane_node(&one, 0, lanes.set.n())
    }
}

/// The children on one side of the nodes from index `first` on, one in each lane up to the lane `count`. 0 is the left
/// side, 1 the right one. They come from the nodes of the height below, end to end.
fn children(set: ParamSet, below: &[u8], first: u32, side: usize, count: usize) -> LaneNodes {
    let mut nodes = node_lanes(&[]);
    for j in 0..count {
        let child = 2 * (first as usize + j) + side;
        set_lane(&mut nodes, j, chunk_at(below, set.n(), child));
    }
    nodes
}

impl ForsPlace {
    /// The nodes of height `z` from index `first` on, as many as `count`, from the nodes of the height below, end to
    /// end.
    pub(crate) fn parents_from_lanes(
        &self,
        lanes: &SeededLanes,
        z: u32,
        first: u32,
        count: usize,
        below: &[u8],
    ) -> Leaves {
        let set = lanes.set;
        let mut nodes = [children(set, below, first, 0, count)];
        let right = [children(set, below, first, 1, count)];
        let adrs = [self.lane_adrs(set, AdrsType::ForsTree, z, first)];
        lanes.h(&adrs, &mut nodes, &right);
        first_nodes(&nodes[0], set.n(), count)
    }
}

/// From this height on a node is made from eight nodes that stand side by side.
const EIGHT_NODES: u32 = 3;

impl<'c, 'a> ForsNodes<'c, 'a> {
    /// fors_node (Algorithm 15): the node of height `z` at index `i` of this tree, from the leaves below it. From
    /// height 3 on it is made in lanes.
    pub(crate) fn node(&self, z: u32, i: u32) -> Node {
        if EIGHT_NODES <= z {
            let signer = self.signer;
            self.at.node_from_lanes(signer.lanes(), signer.sk_seed, z, i)
        } else {
            node(self, z, i)
        }
    }
}
