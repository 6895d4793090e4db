// Made by tools/plain_rust.py from crates/slh_params/src/lib.rt.
//! Parameter sets, bits and addresses of SLH-DSA (FIPS 205) for the SHA-2 sets.

pub use adrs::Adrs;
pub use adrs_type::AdrsType;
pub use bits::{base_2b, to_byte, to_int};
pub use node::{Node, copy_of, node_of, put_node};
pub use param_set::{ParamSet, RecordFault};

mod adrs;
mod adrs_type;
mod bits;
mod node;
mod param_set;
