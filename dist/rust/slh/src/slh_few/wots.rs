// Made by tools/plain_rust.py from crates/slh_few/src/wots.rt.
//! WOTS+, one-time signatures (FIPS 205, section 5).

use crate::slh_few::context::{HashContext, SigningContext};
use crate::slh_few::lanes::{ChainNumbers, MOST_DIGITS, run_secrets_in_lanes, run_values};
use crate::slh_few::nodes::node_at;
use crate::slh_few::place::{Place, Public, Seeds};
use crate::slh_few::wots_digits::{MOST_CHAINS, digits_of};
use crate::slh_lanes::SeededLanes;
use crate::slh_params::{Adrs, AdrsType, Node, ParamSet, copy_of};

/// The WOTS+ address of a type at a place: a chain, and a step of it.
pub(crate) fn wots_adrs(at: Place, kind: AdrsType, chain: u32, hash: u32) -> Adrs {
    let mut adrs = Adrs::zero();
    adrs.set_layer(at.layer);
    adrs.set_tree(at.tree);
    adrs.set_type_and_clear(kind);
    adrs.set_key_pair(at.pair);
    adrs.set_chain(chain);
    adrs.set_hash(hash);
    adrs
}

/// The most steps of a chain in any set: w is at most 256.
pub(crate) const MOST_STEPS: u32 = 256 - 1;

/// Runs chain `c` on from `x`, which is its value after `from` steps.
pub(crate) fn run_chain(context: &HashContext, at: Place, c: u32, x: Node, from: u32, steps: u32) -> Node {
    let mut adrs = wots_adrs(at, AdrsType::WotsHash, c, 0);
    let mut node = x;
    for step in 0..steps {
        adrs.set_hash(from + step);
        node = context.f(&adrs, &node);
    }
    node
}

/// The value of chain `chain_no` that `steps` steps lead to from `x`, its value after `from` steps:
/// n bytes (Algorithm 5). A chain run in two parts is the chain.
pub fn chain(public: &Public, at: Place, chain_no: u32, x: &Node, from: u32, steps: u32) -> Node {
    let context = HashContext::new(public.set, public.pk_seed);
    run_chain(&context, at, chain_no, copy_of(x), from, steps)
}

/// At least the length of a signature in any set, and so of a value of each chain of a key: of 32 bytes each.
pub(crate) const MOST_WOTS_SIG_LEN: usize = MOST_CHAINS * 32;

/// T over the ends of all chains: the public key, n bytes (Algorithm 6, lines 10 to 13).
pub(crate) fn compressed_ends(context: &HashContext, at: Place, ends: &[u8]) -> Node {
    let adrs = wots_adrs(at, AdrsType::WotsPk, 0, 0);
    context.t(&adrs, ends, context.set.len())
}

impl<'a> SigningContext<'a> {
    /// The public key at a place: n bytes (Algorithm 6).
    pub fn wots_pk(&self, at: Place) -> Node {
        let set = self.public.set;
        let mut buffer = [0; MOST_WOTS_SIG_LEN];
        let ends = &mut buffer[..wots_sig_len(set)];
        let last = [set.w() - 1; MOST_DIGITS];
        run_secrets_in_lanes(self.lanes(), self.sk_seed, at, &last, ends);
        compressed_ends(&self.public, at, ends)
    }

    /// Writes the signature of a message of n bytes: len * n bytes (Algorithm 7).
    /// The key that it gives is the public key.
    pub fn wots_sign(&self, at: Place, msg: &Node, out: &mut [u8]) {
        let digits = digits_of(self.public.set, msg);
        run_secrets_in_lanes(self.lanes(), self.sk_seed, at, &digits, out);
    }
}

/// The public key at a place: n bytes (Algorithm 6).
pub fn wots_pk(seeds: &Seeds, at: Place) -> Node {
    SigningContext::new(seeds).wots_pk(at)
}

/// The length of a signature: len * n bytes.
pub fn wots_sig_len(set: ParamSet) -> usize {
    set.len() * set.n()
}

/// Writes the signature of a message of n bytes: len * n bytes (Algorithm 7).
/// The key that it gives is the public key.
pub fn wots_sign(seeds: &Seeds, at: Place, msg: &Node, out: &mut [u8]) {
    SigningContext::new(seeds).wots_sign(at, msg, out);
}

/// How many steps each chain has left from its digit to its end, with zeros after them.
fn steps_left(set: ParamSet, digits: &ChainNumbers) -> ChainNumbers {
    let last = set.w() - 1;
    let mut left = [0; MOST_DIGITS];
    for c in 0..set.len() {
        left[c] = last - digits[c];
    }
    left
}

/// Writes the ends of the chains that a signature of a message of n bytes leads to (Algorithm 8, lines 1 to 10).
pub(crate) fn put_ends(lanes: &SeededLanes, at: Place, msg: &Node, sig: &[u8], out: &mut [u8]) {
    let digits = digits_of(lanes.set, msg);
    let left = steps_left(lanes.set, &digits);
    out.copy_from_slice(sig);
    run_values(lanes, at, &digits, &left, out);
}

/// The public key that a signature of a message of n bytes gives (Algorithm 8). T absorbs the end of each chain as it
/// is reached, so no buffer holds all.
fn absorbed_ends(context: &HashContext, at: Place, msg: &Node, sig: &[u8]) -> Node {
    let set = context.set;
    let digits = digits_of(set, msg);
    let last = set.w() - 1;
    let n = set.n();
    let mut stream = context.t_stream(&wots_adrs(at, AdrsType::WotsPk, 0, 0));
    for c in 0..set.len() {
        let value = node_at(sig, n, c);
        stream.absorb(&run_chain(context, at, c as u32, value, digits[c], last - digits[c]));
    }
    stream.finish()
}

impl<'a> HashContext<'a> {
    /// The public key that a signature of a message of n bytes gives: n bytes (Algorithm 8).
    pub fn wots_pk_from_sig(&self, at: Place, msg: &Node, sig: &[u8]) -> Node {
        let Some(lanes) = self.lanes() else {
            return absorbed_ends(self, at, msg, sig);
        };
        let mut buffer = [0; MOST_WOTS_SIG_LEN];
        let ends = &mut buffer[..wots_sig_len(self.set)];
        put_ends(lanes, at, msg, sig, ends);
        compressed_ends(self, at, ends)
    }
}

/// The public key that a signature of a message of n bytes gives: n bytes (Algorithm 8).
pub fn wots_pk_from_sig(public: &Public, at: Place, msg: &Node, sig: &[u8]) -> Node {
    HashContext::new(public.set, public.pk_seed).wots_pk_from_sig(at, msg, sig)
}
