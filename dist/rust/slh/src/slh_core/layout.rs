// Made by tools/plain_rust.py from crates/slh_core/src/layout.rt.
//! The lengths of the parts of a signature (FIPS 205, section 9.2).

use crate::slh_few::fors_part_len;
use crate::slh_params::ParamSet;

/// The length of the FORS signature in a signature, in bytes.
pub fn fors_sig_len(set: ParamSet) -> usize {
    set.k() as usize * fors_part_len(set)
}
