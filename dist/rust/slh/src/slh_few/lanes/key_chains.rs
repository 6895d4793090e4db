// Made by tools/plain_rust.py from crates/slh_few/src/lanes/key_chains.rt.
//! The chains of eight WOTS+ keys at once, one key in each lane of a group (FIPS 205, section 5). Of one of the keys
//! values are stored on the way: those of a signature (Algorithm 7), checkpoints, or none.

use crate::slh_few::key_checkpoints::{checkpoint_count, put_checkpoint, spacing};
use crate::slh_few::lanes::chains::ChainNumbers;
use crate::slh_few::lanes::keys::key_adrs;
use crate::slh_few::nodes::put_chunk;
use crate::slh_few::place::Place;
use crate::slh_lanes::{GROUP, LaneNodes, SeededLanes, lane_node};
use crate::slh_params::{AdrsType, ParamSet};

/// The values that are stored of each chain while the chains of eight keys run to their ends, one key in each lane.
/// Every chain stores equally many bytes.
pub(crate) trait Stored {
    /// The ends of two chains of eight keys, of which the first is at this place: those of chain `c + g` in group `g`.
    /// The stored values of these chains are written into `out`.
    fn ends_of_two(&self, lanes: &SeededLanes, sk_seed: &[u8], at: Place, c: u32, out: &mut [u8]) -> [LaneNodes; 2];

    /// The ends of chain `c` of eight keys, and its stored values, as `ends_of_two` has them of two chains.
    fn ends_of_one(&self, lanes: &SeededLanes, sk_seed: &[u8], at: Place, c: u32, out: &mut [u8]) -> [LaneNodes; 1];
}

/// Nothing is stored.
pub(crate) struct Nothing;

impl Stored for Nothing {
    fn ends_of_two(&self, lanes: &SeededLanes, sk_seed: &[u8], at: Place, c: u32, _out: &mut [u8]) -> [LaneNodes; 2] {
        whole_chains(lanes, sk_seed, at, c)
    }

    fn ends_of_one(&self, lanes: &SeededLanes, sk_seed: &[u8], at: Place, c: u32, _out: &mut [u8]) -> [LaneNodes; 1] {
        whole_chains(lanes, sk_seed, at, c)
    }
}

/// The ends of `G` chains of eight keys, of which the first is at this place: those of chain `c + g` in group `g`.
fn whole_chains<const G: usize>(lanes: &SeededLanes, sk_seed: &[u8], at: Place, c: u32) -> [LaneNodes; G] {
    let mut values = secrets(lanes, sk_seed, at, c);
    let adrs = key_adrs(at, AdrsType::WotsHash, c);
    lanes.chains(&adrs, &mut values, 0, lanes.set.w() - 1);
    values
}

/// The secrets of `G` chains of eight keys, of which the first is at this place: those of chain `c + g` in group `g`.
pub(crate) fn secrets<const G: usize>(lanes: &SeededLanes, sk_seed: &[u8], at: Place, c: u32) -> [LaneNodes; G] {
    lanes.prf(sk_seed, &key_adrs(at, AdrsType::WotsPrf, c))
}

/// The values that the chains of the key in this lane have after as many steps as their digits say: those of a
/// signature.
pub(crate) struct SignedValues<'a> {
    pub(crate) lane: usize,
    pub(crate) digits: &'a ChainNumbers,
}

impl<'a> Stored for SignedValues<'a> {
    fn ends_of_two(&self, lanes: &SeededLanes, sk_seed: &[u8], at: Place, c: u32, out: &mut [u8]) -> [LaneNodes; 2] {
        self.ends(lanes, sk_seed, at, c, out)
    }

    fn ends_of_one(&self, lanes: &SeededLanes, sk_seed: &[u8], at: Place, c: u32, out: &mut [u8]) -> [LaneNodes; 1] {
        self.ends(lanes, sk_seed, at, c, out)
    }
}

impl<'a> SignedValues<'a> {
    /// As `ends_of_two`, of `G` chains. They are run to the lower digit of the signature, to the higher one, and to their
    /// ends.
    fn ends<const G: usize>(
        &self,
        lanes: &SeededLanes,
        sk_seed: &[u8],
        at: Place,
        c: u32,
        out: &mut [u8],
    ) -> [LaneNodes; G] {
        let a = self.digits[c as usize];
        let b = self.digits[c as usize + (G - 1)];
        let low = a.min(b);
        let high = a.max(b);
        let adrs = key_adrs(at, AdrsType::WotsHash, c);
        let mut values = secrets(lanes, sk_seed, at, c);
        lanes.chains(&adrs, &mut values, 0, low);
        self.put_at(lanes.set, low, c, &values, out);
        lanes.chains(&adrs, &mut values, low, high - low);
        self.put_at(lanes.set, high, c, &values, out);
        lanes.chains(&adrs, &mut values, high, lanes.set.w() - 1 - high);
        values
    }

    /// Writes the values of the key's lane of those chains, from `c` on, whose values of the signature are those after
    /// `steps` steps.
    fn put_at<const G: usize>(&self, set: ParamSet, steps: u32, c: u32, values: &[LaneNodes; G], out: &mut [u8]) {
        let n = set.n();
        for g in 0..G {
            let chain = c as usize + g;
            if self.digits[chain] == steps {
                put_chunk(out, n, chain, &lane_node(&values[g], self.lane, n));
            }
        }
    }
}

/// The checkpoints of the chains of the key in this lane. The chains are run from one checkpoint to the next.
pub(crate) struct LaneCheckpoints {
    pub(crate) lane: usize,
}

impl Stored for LaneCheckpoints {
    fn ends_of_two(&self, lanes: &SeededLanes, sk_seed: &[u8], at: Place, c: u32, out: &mut [u8]) -> [LaneNodes; 2] {
        self.ends(lanes, sk_seed, at, c, out)
    }

    fn ends_of_one(&self, lanes: &SeededLanes, sk_seed: &[u8], at: Place, c: u32, out: &mut [u8]) -> [LaneNodes; 1] {
        self.ends(lanes, sk_seed, at, c, out)
    }
}

impl LaneCheckpoints {
    /// As `ends_of_two`, of `G` chains. They are run from one checkpoint to the next.
    fn ends<const G: usize>(
        &self,
        lanes: &SeededLanes,
        sk_seed: &[u8],
        at: Place,
        c: u32,
        out: &mut [u8],
    ) -> [LaneNodes; G] {
        let every = spacing(lanes.set);
        let last = checkpoint_count(lanes.set) - 1;
        let adrs = key_adrs(at, AdrsType::WotsHash, c);
        let mut values = secrets(lanes, sk_seed, at, c);
        for j in 0..last {
            self.put_checkpoints(lanes.set, out, c, j, &values);
            lanes.chains(&adrs, &mut values, j * every, every);
        }
        self.put_checkpoints(lanes.set, out, c, last, &values);
        lanes.chains(&adrs, &mut values, last * every, every - 1);
        values
    }

    /// Writes checkpoint `j` of the chains from `c` on, from the key's lane of each group.
    fn put_checkpoints<const G: usize>(
        &self,
        set: ParamSet,
        checkpoints: &mut [u8],
        c: u32,
        j: u32,
        values: &[LaneNodes; G],
    ) {
        for g in 0..G {
            let value = lane_node(&values[g], self.lane, set.n());
            put_checkpoint(set, checkpoints, c as usize + g, j as usize, &value);
        }
    }
}
