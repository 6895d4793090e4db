// Made by tools/plain_rust.py from crates/slh_jobs/src/generation.rt.
//! Key generation as jobs (FIPS 205, Algorithm 18).

use crate::slh_jobs::answer_bytes::{AnswerBytes, MOST_NODES_LEN, TreeRanges, are_judged};
use crate::slh_jobs::fault::JobFault;
use crate::slh_jobs::jobs::ranges;
use crate::slh_jobs::levels::Levels;
use crate::slh_jobs::shape::Shape;
use crate::slh_jobs::tag::{answer_tag, keyed_for_key, tags_of_key};
use crate::slh_jobs::upper_tree::{top_root, xmss_joins};
use crate::slh_core::SecretKey;
use crate::slh_few::{HashContext, Seeds, xmss_node};
use crate::slh_params::{Node, ParamSet};
use crate::slh_subtrees::top_layer;

/// How the tree of the top layer is cut.
fn key_shape(levels: &Levels) -> Shape {
    Shape { n: levels.set.n(), height: levels.set.hp(), levels: levels.xmss, own: 0 }
}

/// The number of jobs of key generation: the ranges of the XMSS tree of the top layer.
pub fn keygen_jobs(levels: &Levels) -> u32 {
    ranges(levels.xmss)
}

/// The length of the answer of a job of key generation, in bytes: 2n.
pub fn key_answer_len(set: ParamSet) -> usize {
    2 * set.n()
}

/// The node of a range of the tree.
fn key_node(levels: &Levels, sk_seed: &[u8], pk_seed: &[u8], range: u32) -> Node {
    let set = levels.set;
    let seeds = Seeds { set, sk_seed, pk_seed };
    xmss_node(&seeds, top_layer(set), 0, key_shape(levels).below(), range)
}

/// Writes the answer of a job of the generation of the key of three seeds of n bytes each, 2n bytes. It depends only on
/// its arguments: any thread may call it, in any order.
pub fn keygen_job(levels: &Levels, sk_seed: &[u8], sk_prf: &[u8], pk_seed: &[u8], job: u32, answer: &mut [u8]) {
    let node = key_node(levels, sk_seed, pk_seed, job);
    let (first, second) = answer.split_at_mut(levels.set.n());
    first.copy_from_slice(&node);
    let keyed = keyed_for_key(levels, sk_seed, sk_prf, pk_seed);
    second.copy_from_slice(&answer_tag(&keyed, job, &node));
}

/// The root that the answers give, of n bytes; `None` if a node does not have its tag. Each node is read once: the copy
/// that is compared is hashed.
fn judged_root(levels: &Levels, sk_seed: &[u8], sk_prf: &[u8], pk_seed: &[u8], given: &AnswerBytes) -> Option<Node> {
    let set = levels.set;
    let tags = tags_of_key(levels, sk_seed, sk_prf, pk_seed);
    let mut copies = [0; MOST_NODES_LEN];
    let copies = &mut copies[..keygen_jobs(levels) as usize * set.n()];
    if !are_judged(given, 0, &tags, 0, copies) {
        return None;
    }
    let context = HashContext::new(set, pk_seed);
    let tree = xmss_joins(&context, top_layer(set), 0);
    let own = TreeRanges { given: *given, first: 0 };
    Some(top_root(&tree, &own, copies))
}

/// The secret key of three seeds of n bytes each (FIPS 205, Algorithm 18), from the answers of all jobs, end to end in
/// the order of the jobs. If each answer is that of `keygen_job`, it is the key of `keygen_internal` of `slh_core`.
///
/// The answers may be any bytes. Refused: `BadAnswersLength` unless they have 2n bytes for each job; `AnswersDisagree`
/// if a node does not have the tag of its job under these seeds and these levels.
pub fn keygen_join(
    levels: &Levels,
    sk_seed: &[u8],
    sk_prf: &[u8],
    pk_seed: &[u8],
    answers: &[u8],
) -> Result<SecretKey, JobFault> {
    let shape = key_shape(levels);
    if answers.len() != keygen_jobs(levels) as usize * shape.answer_len() {
        return Err(JobFault::BadAnswersLength);
    }
    let given = AnswerBytes { shape, bytes: answers };
    let Some(root) = judged_root(levels, sk_seed, sk_prf, pk_seed, &given) else {
        return Err(JobFault::AnswersDisagree);
    };
    Ok(SecretKey::from_parts(levels.set, sk_seed, sk_prf, pk_seed, &root))
}
