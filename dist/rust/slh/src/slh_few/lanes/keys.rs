// Made by tools/plain_rust.py from crates/slh_few/src/lanes/keys.rt.
//! Eight WOTS+ keys at once, one in each lane (FIPS 205, section 5).

use crate::slh_few::context::SigningContext;
use crate::slh_few::lanes::key_chains::{SignedValues, Stored};
use crate::slh_few::nodes::first_nodes;
use crate::slh_few::place::Place;
use crate::slh_few::wots::wots_adrs;
use crate::slh_few::wots_digits::digits_of;
use crate::slh_lanes::{GROUP, LaneAdrs, LaneStream, SeededLanes, Words, adrs_lanes, consecutive, set_pairs};
use crate::slh_params::{AdrsType, Node};
use crate::slh_tree::{Leaves, Tree, path};
use crate::vectors::*;

/// The addresses of chain `c` of eight keys, of which the first is at this place.
fn chain_adrs(at: Place, kind: AdrsType, c: u32) -> LaneAdrs {
    let mut adrs = adrs_lanes(&wots_adrs(at, kind, c, 0));
    set_pairs(&mut adrs, consecutive(at.pair));
    adrs
}

/// The addresses of `G` chains of these keys, from chain `c` on: those of chain `c + g` in group `g`.
pub(crate) fn key_adrs<const G: usize>(at: Place, kind: AdrsType, c: u32) -> [LaneAdrs; G] {
    let mut adrs = [[Words::splat(0); 6]; G];
    for g in 0..G {
        adrs[g] = chain_adrs(at, kind, c + g as u32);
    }
    adrs
}

/// The public keys at this place and the next seven, n bytes each (Algorithm 6). The stored values of their chains are
/// written into `out`, one chain after another.
///
/// Two chains of each of the eight keys are run at once, since the lanes take the same steps. No chain is computed twice.
pub(crate) fn eight_keys<K: Stored>(
    lanes: &SeededLanes,
    sk_seed: &[u8],
    at: Place,
    store: &K,
    out: &mut [u8],
) -> Leaves {
    let mut stream = LaneStream::new(lanes, &chain_adrs(at, AdrsType::WotsPk, 0));
    let len = lanes.set.len() as u32;
    for pair in 0..len / 2 {
        let [x, y] = store.ends_of_two(lanes, sk_seed, at, 2 * pair, out);
        stream.absorb(&x);
        stream.absorb(&y);
    }
    if len % 2 == 1 {
        let [x] = store.ends_of_one(lanes, sk_seed, at, len - 1, out);
        stream.absorb(&x);
    }
    first_nodes(&stream.finish(), lanes.set.n(), GROUP)
}

/// The place of the first of the eight keys that stand below the same node of height 3 as the key at this place.
pub(crate) fn first_of_eight(at: Place) -> Place {
    Place { layer: at.layer, tree: at.tree, pair: at.pair - at.pair % GROUP as u32 }
}

/// The lane of the key at this place among the keys from `first_of_eight` on.
pub(crate) fn lane_among_eight(at: Place) -> usize {
    at.pair as usize % GROUP
}

/// Writes the signature of a message of n bytes by the key at this place, len * n bytes (Algorithm 7), and gives the
/// public keys of the eight places from `first_of_eight` on, n bytes each (Algorithm 6).
fn sign_among_eight(lanes: &SeededLanes, sk_seed: &[u8], at: Place, msg: &Node, out: &mut [u8]) -> Leaves {
    let digits = digits_of(lanes.set, msg);
    let signed = SignedValues { lane: lane_among_eight(at), digits: &digits };
    eight_keys(lanes, sk_seed, first_of_eight(at), &signed, out)
}

/// Writes the signature as `xmss_sign` does, and gives the leaf that signs. That leaf is made together with the seven
/// others below its node of height 3, and the path's nodes of heights 0 to 2 are made from those. If the tree has fewer
/// than eight leaves, the keys after its last leaf are not read.
pub(crate) fn sign_giving_leaf(signer: &SigningContext, at: Place, msg: &Node, out: &mut [u8]) -> Node {
    let (wots, auth) = out.split_at_mut(signer.public.set.len() * signer.public.set.n());
    let group = sign_among_eight(signer.lanes(), signer.sk_seed, at, msg, wots);
    let tree = signer.xmss_nodes_knowing(first_of_eight(at), group);
    path(&tree, at.pair, auth);
    tree.leaf(at.pair)
}
