// Made by tools/plain_rust.py from crates/slh_few/src/lanes/hypertrees.rt.
//! Eight hypertree signatures under one set, verified side by side: one in each lane (FIPS 205, section 7.2).

use crate::slh_few::hypertree::{HtSignature, place_above, xmss_sig_len};
use crate::slh_few::lanes::fors_climbs::has_lanes;
use crate::slh_few::nodes::chunk_at;
use crate::slh_few::place::Place;
use crate::slh_few::wots::{put_ends, wots_adrs, wots_sig_len};
use crate::slh_lanes::{
    GROUP, LaneAdrs, LaneNodes, LaneSeeds, LaneStream, Words, half, lane_node, node_lanes, parity, pick_nodes,
    set_adrs, set_chains, set_hashes, set_lane, set_pairs,
};
use crate::slh_params::{AdrsType, Node, ParamSet};

/// The most bytes of a key's ends in lanes. The sets of FIPS 205 have no more. A longer buffer would lie on the stack of
/// each caller.
const MOST_ENDS_LEN: usize = 67 * 32;

/// The ends of the chains of eight keys.
type Ends = [[u8; MOST_ENDS_LEN]; GROUP];

/// Puts the PK.seeds into one lane each. False if the build has one lane.
fn put_seeds(set: ParamSet, signed: &[HtSignature; GROUP], seeds: &mut LaneSeeds) -> bool {
    for j in 0..GROUP {
        let Some(lanes) = signed[j].context.lanes() else {
            return false;
        };
        seeds.set_lane(j, lanes);
    }
    true
}

/// The place of the leaf that signs the message.
fn first_place(signature: &HtSignature) -> Place {
    Place { layer: 0, tree: signature.idx_tree, pair: signature.idx_leaf }
}

/// The places on layer 0.
fn first_places(set: ParamSet, signed: &[HtSignature; GROUP]) -> [Place; GROUP] {
    [
        first_place(&signed[0]),
        first_place(&signed[1]),
        first_place(&signed[2]),
        first_place(&signed[3]),
        first_place(&signed[4]),
        first_place(&signed[5]),
        first_place(&signed[6]),
        first_place(&signed[7]),
    ]
}

/// The places one layer up.
fn places_above(set: ParamSet, places: &[Place; GROUP], layer: u8) -> [Place; GROUP] {
    [
        place_above(set, places[0], layer),
        place_above(set, places[1], layer),
        place_above(set, places[2], layer),
        place_above(set, places[3], layer),
        place_above(set, places[4], layer),
        place_above(set, places[5], layer),
        place_above(set, places[6], layer),
        place_above(set, places[7], layer),
    ]
}

/// The addresses of a type of the keys at these places, one in each lane.
fn place_adrs(places: &[Place; GROUP], kind: AdrsType) -> LaneAdrs {
    let mut adrs = [Words::splat(0); 6];
    for j in 0..GROUP {
        set_adrs(&mut adrs, j, &wots_adrs(places[j], kind, 0, 0));
    }
    adrs
}

/// The messages, one in each lane.
fn messages_of(set: ParamSet, signed: &[HtSignature; GROUP]) -> LaneNodes {
    let mut nodes = node_lanes(&[]);
    for j in 0..GROUP {
        set_lane(&mut nodes, j, signed[j].msg);
    }
    nodes
}

/// Writes the ends of the chains of the key at a place, which signs a node on a layer. False if the build has one lane.
fn put_ends_of(
    set: ParamSet,
    signature: &HtSignature,
    at: Place,
    layer: usize,
    msg: &Node,
    out: &mut [u8; MOST_ENDS_LEN],
) -> bool {
    let Some(lanes) = signature.context.lanes() else {
        return false;
    };
    let size = wots_sig_len(set);
    let sig = chunk_at(signature.sig, xmss_sig_len(set), layer);
    put_ends(lanes, at, msg, &sig[..size], &mut out[..size]);
    true
}

/// Writes the ends of the chains of each key of a layer, which signs the node in its lane. False if the build has one
/// lane.
fn put_all_ends(
    set: ParamSet,
    signed: &[HtSignature; GROUP],
    places: &[Place; GROUP],
    layer: usize,
    nodes: &LaneNodes,
    ends: &mut Ends,
) -> bool {
    let n = set.n();
    for j in 0..GROUP {
        let msg = lane_node(nodes, j, n);
        if !put_ends_of(set, &signed[j], places[j], layer, &msg, &mut ends[j]) {
            return false;
        }
    }
    true
}

/// Node `c` of the ends of each key.
fn ends_at(set: ParamSet, ends: &Ends, c: usize) -> LaneNodes {
    let n = set.n();
    let mut nodes = node_lanes(&[]);
    for j in 0..GROUP {
        set_lane(&mut nodes, j, chunk_at(&ends[j], n, c));
    }
    nodes
}

/// T over the ends of each key at these places.
fn compressed(set: ParamSet, seeds: &LaneSeeds, places: &[Place; GROUP], ends: &Ends) -> LaneNodes {
    let mut stream = LaneStream::under(seeds, &place_adrs(places, AdrsType::WotsPk));
    for c in 0..set.len() {
        stream.absorb(&ends_at(set, ends, c));
    }
    stream.finish()
}

/// Node `z` of the path in each signature of a layer.
fn path_nodes(set: ParamSet, signed: &[HtSignature; GROUP], layer: usize, z: u32) -> LaneNodes {
    let n = set.n();
    let place = set.len() + z as usize;
    let mut nodes = node_lanes(&[]);
    for j in 0..GROUP {
        let sig = chunk_at(signed[j].sig, xmss_sig_len(set), layer);
        set_lane(&mut nodes, j, chunk_at(sig, n, place));
    }
    nodes
}

/// The nodes of height `z` over nodes at these indices of the height below, and over their siblings: H of both. `adrs`
/// is the address of a node of the tree in each lane.
fn parents(
    seeds: &LaneSeeds,
    adrs: &LaneAdrs,
    z: u32,
    indices: Words,
    own: &LaneNodes,
    others: &LaneNodes,
) -> LaneNodes {
    let mut here = *adrs;
    set_chains(&mut here, Words::splat(z));
    set_hashes(&mut here, half(indices));
    let right_children = parity(indices);
    let ones = Words::splat(1);
    let left = pick_nodes(right_children, ones, own, others);
    let right = pick_nodes(right_children, ones, others, own);
    seeds.h(&here, &left, &right)
}

/// The pairs of the places, one in each lane.
fn pairs_of(places: &[Place; GROUP]) -> Words {
    let [a, b, c, d, e, f, g, h] = *places;
    Words::from_array([a.pair, b.pair, c.pair, d.pair, e.pair, f.pair, g.pair, h.pair])
}

/// The roots of the layer's trees that the paths give from these leaves.
fn climbed(
    set: ParamSet,
    signed: &[HtSignature; GROUP],
    seeds: &LaneSeeds,
    places: &[Place; GROUP],
    layer: usize,
    leaves: &LaneNodes,
) -> LaneNodes {
    let mut adrs = place_adrs(places, AdrsType::Tree);
    set_pairs(&mut adrs, Words::splat(0));
    let mut at = pairs_of(places);
    let mut nodes = *leaves;
    for z in 0..set.hp() {
        let others = path_nodes(set, signed, layer, z);
        nodes = parents(seeds, &adrs, z + 1, at, &nodes, &others);
        at = half(at);
    }
    nodes
}

/// Puts into each lane the root of the layer's tree that the signature of the node in the lane gives. False if the
/// build has one lane.
fn put_layer_roots(
    set: ParamSet,
    signed: &[HtSignature; GROUP],
    seeds: &LaneSeeds,
    places: &[Place; GROUP],
    layer: usize,
    nodes: &mut LaneNodes,
    ends: &mut Ends,
) -> bool {
    if !put_all_ends(set, signed, places, layer, nodes, ends) {
        return false;
    }
    let leaves = compressed(set, seeds, places, ends);
    *nodes = climbed(set, signed, seeds, places, layer, &leaves);
    true
}

/// Puts into each lane the root of the top tree that its signature gives. False if the build has one lane.
fn put_top_roots(set: ParamSet, signed: &[HtSignature; GROUP], seeds: &LaneSeeds, nodes: &mut LaneNodes) -> bool {
    let mut ends = [[0; MOST_ENDS_LEN]; GROUP];
    let mut places = first_places(set, signed);
    *nodes = messages_of(set, signed);
    for layer in 0..set.d() as u8 {
        let index = layer as usize;
        if !put_layer_roots(set, signed, seeds, &places, index, nodes, &mut ends) {
            return false;
        }
        places = places_above(set, &places, layer + 1);
    }
    true
}

/// Puts into each lane the root of the top tree that its signature gives. False if the build has no lanes for F and H,
/// or the ends of a key are too long.
pub(crate) fn put_roots_in_lanes(set: ParamSet, signed: &[HtSignature; GROUP], nodes: &mut LaneNodes) -> bool {
    let Some(first) = signed[0].context.lanes() else {
        return false;
    };
    let mut seeds = LaneSeeds::splat(first);
    has_lanes(set)
        && wots_sig_len(set) <= MOST_ENDS_LEN
        && put_seeds(set, signed, &mut seeds)
        && put_top_roots(set, signed, &seeds, nodes)
}
