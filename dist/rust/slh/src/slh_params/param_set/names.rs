// Made by tools/plain_rust.py from crates/slh_params/src/param_set/names.rt.
//! The names of the standard's parameter sets (FIPS 205, section 11, Table 2).

use super::ParamSet;

impl ParamSet {
    /// `ALL`, with the clause that says what it lists: a clause cannot name a constant of a type.
    pub fn all() -> [ParamSet; 6] {
        ParamSet::ALL
    }

    /// Whether the sets have the same numbers.
    fn is(&self, other: &ParamSet) -> bool {
        self.n == other.n
            && self.lg_w == other.lg_w
            && self.hp == other.hp
            && self.d == other.d
            && self.a == other.a
            && self.k == other.k
    }

    /// Whether this is one of the six sets of the standard.
    pub fn is_fips_205(&self) -> bool {
        self.name() != "custom"
    }

    /// The name of the set in the standard, or `custom`.
    pub fn name(&self) -> &'static str {
        if self.is(&ParamSet::S128s) {
            "SLH-DSA-SHA2-128s"
        } else if self.is(&ParamSet::S128f) {
            "SLH-DSA-SHA2-128f"
        } else if self.is(&ParamSet::S192s) {
            "SLH-DSA-SHA2-192s"
        } else if self.is(&ParamSet::S192f) {
            "SLH-DSA-SHA2-192f"
        } else if self.is(&ParamSet::S256s) {
            "SLH-DSA-SHA2-256s"
        } else if self.is(&ParamSet::S256f) {
            "SLH-DSA-SHA2-256f"
        } else {
            "custom"
        }
    }

    /// The set of this name; `None` where the text is no name of a set. Letter case counts.
    pub fn from_name(text: &str) -> Option<ParamSet> {
        match text {
            "SLH-DSA-SHA2-128s" => Some(ParamSet::S128s),
            "SLH-DSA-SHA2-128f" => Some(ParamSet::S128f),
            "SLH-DSA-SHA2-192s" => Some(ParamSet::S192s),
            "SLH-DSA-SHA2-192f" => Some(ParamSet::S192f),
            "SLH-DSA-SHA2-256s" => Some(ParamSet::S256s),
            "SLH-DSA-SHA2-256f" => Some(ParamSet::S256f),
            _ => None,
        }
    }
}
