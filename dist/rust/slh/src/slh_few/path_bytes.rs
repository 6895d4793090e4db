// Made by tools/plain_rust.py from crates/slh_few/src/path_bytes.rt.
//! Authentication paths as bytes of a signature (FIPS 205, sections 6 and 8.3).

use crate::slh_params::put_node;
use crate::slh_tree::PathRec;

/// Writes the path's node of height `z` from `start` on, where it is known.
fn put_known_node(path: &PathRec, z: u32, out: &mut [u8], start: usize) {
    if let Some(node) = path.at(z) {
        put_node(out, start, node);
    }
}

/// Writes the nodes of a path end to end, from the lowest to the one below `height`, each of n bytes.
pub fn put_known_nodes(path: &PathRec, height: u32, n: usize, out: &mut [u8]) {
    for z in 0..height {
        put_known_node(path, z, out, z as usize * n);
    }
}
