// Made by tools/plain_rust.py from crates/slh_jobs/src/answers.rt.
//! The answers of the jobs of a signature (ours).

use crate::slh_jobs::fault::JobFault;
use crate::slh_jobs::levels::Levels;
use crate::slh_jobs::signing::Signing;
use crate::slh_jobs::start::copy_of_start;
use crate::slh_jobs::tag::{answer_tag, keyed_for_answers};
use crate::slh_core::SecretKey;
use crate::slh_few::put_known_nodes;
use crate::slh_params::{Node, copy_of};
use crate::slh_subtrees::{HashedRange, JobTree};

impl<'a> Signing<'a> {
    /// The result of the leaves from `lo` to before `hi` of a tree, its signing leaf among them. Writes the bytes after
    /// the path in the answer.
    fn hashed_with_rest(&self, tree: JobTree, lo: u32, hi: u32, rest: &mut [u8]) -> HashedRange {
        match tree {
            JobTree::Xmss(layer) => self.trees.hashed_with_checkpoints(layer, lo, hi, rest),
            JobTree::Fors(number) => {
                rest.copy_from_slice(&self.trees.fors_secret(number));
                self.trees.hashed(tree, lo, hi)
            }
        }
    }

    /// The node of the range of a tree in which its signing leaf is. Writes that leaf's path below this node, and then
    /// the checkpoints of the leaf's key, or the leaf's secret.
    fn signing_node(&self, tree: JobTree, own: &mut [u8]) -> Node {
        let shape = self.levels.shape(tree);
        let (lo, hi) = shape.leaves(self.trees.leaf(tree) >> shape.below());
        let (lower, rest) = own.split_at_mut(shape.path_len());
        let hashed = self.hashed_with_rest(tree, lo, hi, rest);
        put_known_nodes(&hashed.path, shape.below(), shape.n, lower);
        copy_of(&hashed.cover.nodes[0].node)
    }

    /// The node of a range of a tree. Writes its answer, without the node and the tag.
    fn put_own(&self, tree: JobTree, range: u32, own: &mut [u8]) -> Node {
        let below = self.levels.shape(tree).below();
        if self.trees.leaf(tree) >> below == range {
            self.signing_node(tree, own)
        } else {
            own.fill(0);
            self.trees.node(tree, below, range)
        }
    }

    /// Writes a node and its tag.
    fn put_front(&self, job: u32, node: &Node, front: &mut [u8]) {
        let (first, second) = front.split_at_mut(self.levels.set.n());
        first.copy_from_slice(node);
        let keyed = keyed_for_answers(&self.levels, self.sk, self.start);
        second.copy_from_slice(&answer_tag(&keyed, job, node));
    }

    /// Writes the answer of a job, which is of this range of this tree.
    fn put_tree_answer(&self, tree: JobTree, range: u32, job: u32, answer: &mut [u8]) {
        let (front, own) = answer.split_at_mut(2 * self.levels.set.n());
        let node = self.put_own(tree, range, own);
        self.put_front(job, &node, front);
    }

    /// Writes the answer of a job.
    fn put_answer(&self, job: u32, answer: &mut [u8]) {
        let (tree, range) = self.levels.tree_and_range(job);
        self.put_tree_answer(tree, range, job, answer);
    }
}

/// Writes the answer of a job of the signature that `start` begins, `answer_len` bytes. It depends only on its
/// arguments: any thread may call it, in any order. Refused, with nothing written, as `BadStart` if `start` does not
/// have its tag under this key, which is checked before the job.
pub fn sign_job(levels: &Levels, sk: &SecretKey, start: &[u8], job: u32, answer: &mut [u8]) -> Result<(), JobFault> {
    let start = copy_of_start(start);
    let signer = sk.signer();
    let Some(signing) = Signing::new(levels, sk, &signer, start.as_slice()) else {
        return Err(JobFault::BadStart);
    };
    signing.put_answer(job, answer);
    Ok(())
}
