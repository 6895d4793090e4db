// Made by tools/plain_rust.py from crates/slh_jobs/src/shape.rt.
//! The cutting of the trees of one kind (ours).

/// No path is longer than 14 nodes of 32 bytes.
const MOST_PATH_LEN: usize = 14 * 32;

/// At least the length of an answer without its node and its tag. A key has at most 133 chains, each with at most 16
/// checkpoints of 32 bytes. A path has fewer bytes than the checkpoints of one chain.
pub(crate) const MOST_OWN_LEN: usize = (133 + 1) * 16 * 32;

/// No answer is longer.
const MOST_ANSWER_LEN: usize = 2 * 32 + MOST_OWN_LEN;

/// How the trees of one kind are cut into ranges of one size, and how long the answer of a range is.
#[derive(Clone, Copy)]
pub(crate) struct Shape {
    /// The length of a node.
    pub(crate) n: usize,
    /// The height of the trees.
    pub(crate) height: u32,
    /// Each tree is cut into 2^levels ranges.
    pub(crate) levels: u32,
    /// The bytes of an answer beside a node and its tag.
    pub(crate) own: usize,
}

impl Shape {
    /// The height of a range's node.
    pub(crate) fn below(&self) -> u32 {
        self.height - self.levels
    }

    /// The length of the nodes of a path below a range's node.
    pub(crate) fn path_len(&self) -> usize {
        self.below() as usize * self.n
    }

    /// The length of an answer.
    pub(crate) fn answer_len(&self) -> usize {
        2 * self.n + self.own
    }

    /// The first leaf of a range, and the leaf after its last one.
    pub(crate) fn leaves(&self, range: u32) -> (u32, u32) {
        let size = 1 << self.below();
        (range * size, (range + 1) * size)
    }
}
