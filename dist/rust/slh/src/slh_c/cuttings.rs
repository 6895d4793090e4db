// Made by tools/plain_rust.py from crates/slh_c/src/cuttings.rt.
//! The split depths that a caller of C passes, as `Levels` (ours).

use crate::slh_c::numbers::set_of;
use crate::slh_c::refusal::Refusal;
use crate::slh_jobs::Levels;
use crate::slh_params::ParamSet;

/// The trees of the set, cut by these levels. `None` if a level is above the height of its trees or above 8.
fn levels_of(set: ParamSet, xmss: u32, fors: u32) -> Option<Levels> {
    Levels::new(set, xmss, fors)
}

/// The trees of the set of a number, cut by these levels. Refused: a number of no set, levels that are not valid.
pub fn cut_of(set: u32, xmss: u32, fors: u32) -> Result<Levels, Refusal> {
    let set = set_of(set)?;
    levels_of(set, xmss, fors).ok_or(Refusal::BadCutting)
}
