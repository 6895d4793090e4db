// Made by tools/plain_rust.py from crates/slh_tree/src/lib.rt.
//! Merkle trees over a trait (FIPS 205, sections 6 and 8): roots, authentication paths, and the root from a leaf and
//! its path. Trees can be built range by range. No call allocates, and none refuses.

mod cover;
mod gathering;
mod leaf_group;
mod paths;
mod range;
mod record;
mod stack;
mod tree;

pub use cover::{Cover, Placed, covers_are_unique, covers_read_from_the_end};
pub use gathering::gather;
pub use paths::{climb, parent, path};
pub use range::{hash_range, node, root};
pub use record::PathRec;
pub use stack::Stack;
pub use tree::{Climbs, Leaves, MOST_LEAVES, Tree};
