// Made by tools/plain_rust.py from crates/slh_jobs/src/tag.rt.
//! Tags (ours). A tag is the HMAC of a start, or of a node of an answer. By it a call refuses one that was made under
//! another key, or for another set, message or job, or that was changed since.

use crate::slh_jobs::levels::Levels;
use crate::slh_jobs::start::MOST_START_LEN;
use arrayvec::ArrayVec;
use crate::slh_core::SecretKey;
use crate::slh_hash::CategoryHmac;
use crate::slh_lanes::HmacLanes;
use crate::slh_params::{Node, ParamSet};

/// The beginning of a text, by the kind of the tagged value.
const START: u8 = 1;

const ANSWER: u8 = 2;

const KEY_ANSWER: u8 = 3;

/// The number of the encoding of starts and answers. A version whose number is another refuses them.
const ENCODING: u8 = 2;

/// The last byte of the key of the tags. It is not zero, so that no shorter key is this one when HMAC fills it up.
const KEY_END: u8 = 1;

/// No key of the tags is longer: three seeds of 32 bytes and the last byte.
const MOST_KEY_LEN: usize = 3 * 32 + 1;

/// The length of the beginning of a text.
const HEAD_LEN: usize = 8;

/// In any set, the part of an answer's text before the number of the job is no longer. It is the beginning, a start and
/// two levels.
pub(crate) const MOST_FRONT_LEN: usize = HEAD_LEN + MOST_START_LEN + 2;

/// The part of a text before the number of a job.
type Front = ArrayVec<u8, MOST_FRONT_LEN>;

/// A law: no two different things have one text, if their parts have the lengths that the kind and the record fix.
pub fn texts_differ() {}

/// A law: HMAC fills up no key of at most 3n bytes to the block of a key of the tags, whose seeds have n bytes each. So
/// no key of PRF_msg, which has n bytes, makes tags.
pub fn keys_differ() {}

/// The key of the tags, SK.prf ‖ SK.seed ‖ PK.seed ‖ 1.
fn key_of_tags(sk_seed: &[u8], sk_prf: &[u8], pk_seed: &[u8]) -> ArrayVec<u8, MOST_KEY_LEN> {
    let mut key = ArrayVec::new();
    let _ = key.try_extend_from_slice(sk_prf);
    let _ = key.try_extend_from_slice(sk_seed);
    let _ = key.try_extend_from_slice(pk_seed);
    let _ = key.try_extend_from_slice(&[KEY_END]);
    key
}

/// The beginning of a text: the kind of the tagged value, the encoding and the numbers of the set.
fn head_of(set: ParamSet, kind: u8) -> [u8; HEAD_LEN] {
    [kind, ENCODING, set.n() as u8, set.lg_w() as u8, set.hp() as u8, set.d() as u8, set.a() as u8, set.k() as u8]
}

/// HMAC under the key of the tags, after the kind of the tagged value, the encoding and the numbers of the set.
fn keyed_for(set: ParamSet, sk_seed: &[u8], sk_prf: &[u8], pk_seed: &[u8], kind: u8) -> CategoryHmac {
    let key = key_of_tags(sk_seed, sk_prf, pk_seed);
    let mut keyed = CategoryHmac::new(set, key.as_slice());
    keyed.update(&head_of(set, kind));
    keyed
}

/// The tag of R and a digest, under a text that has PK.root, too.
pub(crate) fn start_tag(sk: &SecretKey, begun: &[u8]) -> Node {
    let mut keyed = keyed_for(sk.set(), sk.sk_seed(), sk.sk_prf(), sk.pk_seed(), START);
    keyed.update(sk.pk_root());
    keyed.update(begun);
    keyed.finish()
}

/// The HMAC of the tags of a signature's answers, up to the number of the job.
pub(crate) fn keyed_for_answers(levels: &Levels, sk: &SecretKey, start: &[u8]) -> CategoryHmac {
    let mut keyed = keyed_for(levels.set, sk.sk_seed(), sk.sk_prf(), sk.pk_seed(), ANSWER);
    keyed.update(start);
    keyed.update(&[levels.xmss as u8, levels.fors as u8]);
    keyed
}

/// The HMAC of the tags of a key's answers, up to the number of the job.
pub(crate) fn keyed_for_key(levels: &Levels, sk_seed: &[u8], sk_prf: &[u8], pk_seed: &[u8]) -> CategoryHmac {
    let mut keyed = keyed_for(levels.set, sk_seed, sk_prf, pk_seed, KEY_ANSWER);
    keyed.update(&[levels.xmss as u8]);
    keyed
}

/// The tags of the nodes of answers, under one key and after the part of their texts before the number of a job.
pub(crate) struct AnswerTags {
    pub(crate) keyed: CategoryHmac,
    lanes: Option<HmacLanes>,
}

impl AnswerTags {
    /// The lanes for nodes of `n` bytes, if there are any.
    pub(crate) fn lanes_for(&self, n: usize) -> Option<&HmacLanes> {
        if n == 16 { self.lanes.as_ref() } else { None }
    }
}

/// The lanes for tags under a key, after this front of their texts, if HMAC's hash function is SHA-256.
fn lanes_after(set: ParamSet, key: &[u8], front: &[u8]) -> Option<HmacLanes> {
    if set.n() == 16 { HmacLanes::new(key, front) } else { None }
}

/// The tags of a signature's answers.
pub(crate) fn tags_of_answers(levels: &Levels, sk: &SecretKey, start: &[u8]) -> AnswerTags {
    let key = key_of_tags(sk.sk_seed(), sk.sk_prf(), sk.pk_seed());
    let mut front = Front::new();
    let _ = front.try_extend_from_slice(&head_of(levels.set, ANSWER));
    let _ = front.try_extend_from_slice(start);
    let _ = front.try_extend_from_slice(&[levels.xmss as u8, levels.fors as u8]);
    AnswerTags {
        keyed: keyed_for_answers(levels, sk, start),
        lanes: lanes_after(levels.set, key.as_slice(), front.as_slice()),
    }
}

/// The tags of a key's answers.
pub(crate) fn tags_of_key(levels: &Levels, sk_seed: &[u8], sk_prf: &[u8], pk_seed: &[u8]) -> AnswerTags {
    let key = key_of_tags(sk_seed, sk_prf, pk_seed);
    let mut front = Front::new();
    let _ = front.try_extend_from_slice(&head_of(levels.set, KEY_ANSWER));
    let _ = front.try_extend_from_slice(&[levels.xmss as u8]);
    AnswerTags {
        keyed: keyed_for_key(levels, sk_seed, sk_prf, pk_seed),
        lanes: lanes_after(levels.set, key.as_slice(), front.as_slice()),
    }
}

/// The tag of the node that a job answers, from the HMAC up to the job's number.
pub(crate) fn answer_tag(keyed: &CategoryHmac, job: u32, node: &Node) -> Node {
    let mut keyed = keyed.copy();
    keyed.update(&job.to_be_bytes());
    keyed.update(node);
    keyed.finish()
}
