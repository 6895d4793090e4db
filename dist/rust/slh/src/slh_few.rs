// Made by tools/plain_rust.py from crates/slh_few/src/lib.rt.
//! WOTS+, XMSS, the hypertree and FORS (FIPS 205, sections 5 to 8).
//!
//! No call takes memory or refuses anything. The caller has to meet the conditions of its contract.
//!
//! A call over `Seeds` or `Public` makes a context and calls its method of the same name. The callers of several
//! methods make one `HashContext` or `SigningContext`, and drop it before their own public call ends: no hash state
//! remains between public calls.

mod context;
mod fors;
mod fors_blocks;
mod fors_parts;
mod fors_tree;
mod heights;
mod hypertree;
mod key_checkpoints;
mod lanes;
mod nodes;
mod path_bytes;
mod place;
mod ranges;
mod wots;
mod wots_digits;
mod xmss;
mod xmss_tree;

pub use context::{HashContext, SigningContext};
pub use fors::{fors_node, fors_part_len, fors_pk_from_sig, fors_sign};
pub use fors_parts::{MOST_TREES, fors_indices};
pub use fors_tree::{ForsJoins, ForsNodes, ForsPlace, ForsTree};
pub use heights::{BatchParents, path_from_leaves};
pub use hypertree::{
    HtSignature, MOST_LAYERS, MOST_XMSS_SIG_LEN, ht_root_from_sig, ht_roots_from_sigs, ht_sign, ht_verify, layer_place,
    layer_places, xmss_sig_len,
};
pub use key_checkpoints::key_checkpoints_len;
pub use path_bytes::put_known_nodes;
pub use place::{Place, Public, Seeds};
pub use wots::{chain, wots_pk, wots_pk_from_sig, wots_sig_len, wots_sign};
pub use wots_digits::digits;
pub use xmss::{xmss_node, xmss_pk_from_sig, xmss_sign};
pub use xmss_tree::{XmssJoins, XmssNodes, XmssTree};
