// Made by tools/plain_rust.py from crates/slh_params/src/adrs_type.rt.
//! The types of addresses (FIPS 205, section 4.2).

/// The type of an address: what the hash call is for (FIPS 205, section 4.2).
#[derive(Clone, Copy, PartialEq, Eq, Debug)]
pub enum AdrsType {
    /// A step of a WOTS+ chain.
    WotsHash = 0,
    /// The compression of a WOTS+ public key.
    WotsPk = 1,
    /// A node of an XMSS tree.
    Tree = 2,
    /// A leaf or node of a FORS tree.
    ForsTree = 3,
    /// The compression of the FORS roots.
    ForsRoots = 4,
    /// A secret of a WOTS+ key.
    WotsPrf = 5,
    /// A secret of a FORS tree.
    ForsPrf = 6,
}

impl AdrsType {
    /// The number that stands in the address.
    pub fn number(self) -> u8 {
        self as u8
    }
}
