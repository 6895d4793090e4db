// Made by tools/plain_rust.py from crates/slh_jobs/src/answer_bytes.rt.
//! Answers as they are passed in, before any check, and their nodes, which are copied and compared with their tags
//! (ours).

use crate::slh_jobs::jobs::ranges;
use crate::slh_jobs::shape::Shape;
use crate::slh_jobs::tag::{AnswerTags, answer_tag};
use crate::slh_core::are_same;
use crate::slh_hash::CategoryHmac;
use crate::slh_lanes::{GROUP, HmacLanes, LaneNodes, lane_node, node_lanes, set_lane};
use crate::slh_params::{Node, node_of, put_node};

/// Answers of one shape, put end to end, and whatever bytes follow them.
#[derive(Clone, Copy)]
pub(crate) struct AnswerBytes<'a> {
    pub(crate) shape: Shape,
    pub(crate) bytes: &'a [u8],
}

impl<'a> AnswerBytes<'a> {
    /// Answer `c`.
    fn answer(&self, c: usize) -> &'a [u8] {
        let len = self.shape.answer_len();
        let start = c * len;
        &self.bytes[start..start + len]
    }

    /// The node of answer `c`.
    fn node(&self, c: usize) -> Node {
        node_of(&self.answer(c)[..self.shape.n])
    }

    /// The tag of answer `c`.
    fn tag(&self, c: usize) -> &'a [u8] {
        let n = self.shape.n;
        &self.answer(c)[n..2 * n]
    }

    /// The nodes of a path of answer `c`.
    pub(crate) fn path(&self, c: usize) -> &'a [u8] {
        &self.answer(c)[2 * self.shape.n..][..self.shape.path_len()]
    }

    /// The bytes after these in answer `c`.
    pub(crate) fn rest(&self, c: usize) -> &'a [u8] {
        &self.answer(c)[2 * self.shape.n..][self.shape.path_len()..]
    }
}

/// At least the length of the nodes of a tree's ranges: 256 nodes of 32 bytes.
pub(crate) const MOST_NODES_LEN: usize = 256 * 32;

/// The answers of the ranges of one tree, from answer `first` on.
#[derive(Clone, Copy)]
pub(crate) struct TreeRanges<'a> {
    pub(crate) given: AnswerBytes<'a>,
    pub(crate) first: u32,
}

/// The node of answer `c`, if it has the tag of this job.
fn judged_node(given: &AnswerBytes, c: u32, keyed: &CategoryHmac, job: u32) -> Option<Node> {
    let node = given.node(c as usize);
    let tag = answer_tag(keyed, job, &node);
    if are_same(tag.as_slice(), given.tag(c as usize)) { Some(node) } else { None }
}

/// Copies the nodes of a tree's ranges, whose answers begin with answer `first`, one after another. Whether each has its
/// tag, where the first is that of job `job`.
fn judged_alone(given: &AnswerBytes, first: u32, keyed: &CategoryHmac, job: u32, copies: &mut [u8]) -> bool {
    let n = given.shape.n;
    for r in 0..ranges(given.shape.levels) {
        let Some(node) = judged_node(given, first + r, keyed, job + r) else {
            return false;
        };
        put_node(copies, r as usize * n, &node);
    }
    true
}

/// The nodes of 16 bytes of the ranges from `r` on, as many as `used`, one in each lane. Each is read once, and copied.
fn copied_group(given: &AnswerBytes, first: u32, r: usize, used: usize, copies: &mut [u8]) -> LaneNodes {
    let mut nodes = node_lanes(&[]);
    for j in 0..used {
        let node = given.node(first as usize + (r + j));
        put_node(copies, (r + j) * 16, &node);
        set_lane(&mut nodes, j, &node);
    }
    nodes
}

/// Whether the tags of the ranges from `r` on, as many as `used`, begin the values in the lanes.
fn have_tags(given: &AnswerBytes, first: u32, r: usize, used: usize, values: &LaneNodes) -> bool {
    for j in 0..used {
        let tag = given.tag(first as usize + (r + j));
        if !are_same(lane_node(values, j, 16).as_slice(), tag) {
            return false;
        }
    }
    true
}

/// As `judged_alone`, for nodes of 16 bytes, eight at a time.
fn judged_in_lanes(given: &AnswerBytes, first: u32, lanes: &HmacLanes, job: u32, copies: &mut [u8]) -> bool {
    let count = ranges(given.shape.levels) as usize;
    for group in 0..count.div_ceil(GROUP) {
        let r = GROUP * group;
        let used = (count - r).min(GROUP);
        let nodes = copied_group(given, first, r, used, copies);
        let values = lanes.digests(job + r as u32, &nodes);
        if !have_tags(given, first, r, used, &values) {
            return false;
        }
    }
    true
}

/// Copies the nodes of a tree's ranges, whose answers begin with answer `first`. Whether each has its tag, if the first
/// is that of job `job`. Nothing else reads the node of an answer. So the hashed node is the compared one, even if
/// somebody changes the bytes of the answers meanwhile.
pub(crate) fn are_judged(given: &AnswerBytes, first: u32, tags: &AnswerTags, job: u32, copies: &mut [u8]) -> bool {
    match tags.lanes_for(given.shape.n) {
        Some(lanes) => judged_in_lanes(given, first, lanes, job, copies),
        None => judged_alone(given, first, &tags.keyed, job, copies),
    }
}
