// Made by tools/plain_rust.py from crates/slh_subtrees/src/cuts.rt.
//! The cut points of one kind of tree (ours).

use crate::slh_subtrees::fault::{CutFault, CutTree};
use arrayvec::ArrayVec;

/// How the trees of one kind are cut into ranges of leaves.
#[derive(Clone, Copy, PartialEq, Eq, Debug)]
pub enum Cuts<'a> {
    /// Into 2^level ranges of one size. The level is at most the height of the trees, and at most 8.
    Levels(u32),
    /// Before each of these leaves, at most 255. They rise, the first is above 0 and the last is a leaf.
    Points(&'a [u32]),
}

/// The most cut points that a tree has.
const MOST_POINTS: usize = 255;

/// The most levels that a tree is cut by.
pub const MOST_LEVELS: u32 = 8;

/// The points at which trees are cut: the first leaf of each range but the first.
pub(crate) type CutPoints = ArrayVec<u32, MOST_POINTS>;

/// The law that levels cut a tree into 2^level ranges of one size. It does nothing: the law is its contract.
pub fn levels_cut_evenly() {}

/// How many leaves a tree of this height has.
pub(crate) fn leaf_count(height: u32) -> u32 {
    1 << height
}

/// The cut points of the trees of one kind, which have this height. Refused if the levels or the points are invalid.
pub(crate) fn points_of(tree: CutTree, height: u32, cuts: Cuts<'_>) -> Result<CutPoints, CutFault> {
    match cuts {
        Cuts::Levels(level) => {
            if level <= height && level <= MOST_LEVELS {
                Ok(level_cuts(height, level))
            } else {
                Err(CutFault::BadCutting { tree, place: level })
            }
        }
        Cuts::Points(points) => match kept_points(height, points) {
            Ok(kept) => Ok(kept),
            Err(place) => Err(CutFault::BadCutting { tree, place }),
        },
    }
}

/// The points that cut a tree of this height into 2^level ranges of one size.
fn level_cuts(height: u32, level: u32) -> CutPoints {
    let mut kept = ArrayVec::new();
    let size = leaf_count(height - level);
    let count = leaf_count(level);
    for i in 1..count {
        kept.push(i * size);
    }
    kept
}

/// A copy of the points, or the index of the first that is invalid.
fn kept_points(height: u32, points: &[u32]) -> Result<CutPoints, u32> {
    let leaves = leaf_count(height);
    let mut kept = ArrayVec::new();
    let mut before = 0;
    for point in points {
        let at = kept.len();
        if at >= MOST_POINTS || *point <= before || *point >= leaves {
            return Err(at as u32);
        }
        kept.push(*point);
        before = *point;
    }
    Ok(kept)
}
