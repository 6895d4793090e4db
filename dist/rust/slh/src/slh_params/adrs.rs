// Made by tools/plain_rust.py from crates/slh_params/src/adrs.rt.
//! Addresses of hash calls (FIPS 205, sections 4.2 and 11.2).

use crate::slh_params::adrs_type::AdrsType;

/// The address of a hash call (FIPS 205, section 4.2).
///
/// It is kept as the 22 bytes of the compressed form (section 11.2) and edited in place. A layer is
/// below 256 and a tree below 2^64 in every parameter set, so the compressed form loses nothing.
pub struct Adrs {
    bytes: [u8; 22],
}

impl Adrs {
    /// The address whose fields are all 0.
    pub fn zero() -> Self {
        Adrs { bytes: [0; 22] }
    }

    /// setLayerAddress: the layer of the hypertree, 0 at the bottom.
    pub fn set_layer(&mut self, layer: u8) {
        self.bytes[0] = layer;
    }

    /// setTreeAddress: the tree in its layer.
    pub fn set_tree(&mut self, tree: u64) {
        self.bytes[1..9].copy_from_slice(&tree.to_be_bytes());
    }

    /// setTypeAndClear: the type, with the three words after it set to 0.
    pub fn set_type_and_clear(&mut self, kind: AdrsType) {
        self.bytes[9] = kind.number();
        self.bytes[10..22].copy_from_slice(&[0; 12]);
    }

    /// setKeyPairAddress: the WOTS+ key pair, or the leaf that holds the FORS key.
    pub fn set_key_pair(&mut self, key_pair: u32) {
        self.bytes[10..14].copy_from_slice(&key_pair.to_be_bytes());
    }

    /// setChainAddress: the chain of a WOTS+ key.
    pub fn set_chain(&mut self, chain: u32) {
        self.bytes[14..18].copy_from_slice(&chain.to_be_bytes());
    }

    /// setHashAddress: the step of a chain.
    pub fn set_hash(&mut self, hash: u32) {
        self.bytes[18..22].copy_from_slice(&hash.to_be_bytes());
    }

    /// setTreeHeight: the height of a node. The word is that of the chain.
    pub fn set_tree_height(&mut self, height: u32) {
        self.set_chain(height);
    }

    /// setTreeIndex: the place of a node at its height. The word is that of the step.
    pub fn set_tree_index(&mut self, index: u32) {
        self.set_hash(index);
    }

    /// getKeyPairAddress: the word that `set_key_pair` sets.
    pub fn key_pair(&self) -> u32 {
        let b = &self.bytes;
        u32::from_be_bytes([b[10], b[11], b[12], b[13]])
    }

    /// getTreeIndex: the word that `set_tree_index` sets.
    pub fn tree_index(&self) -> u32 {
        let b = &self.bytes;
        u32::from_be_bytes([b[18], b[19], b[20], b[21]])
    }

    /// The 22 bytes that the SHA-2 sets put into a hash (section 11.2).
    pub fn compressed(&self) -> &[u8; 22] {
        &self.bytes
    }

    /// The 32 bytes of the address (section 4.2).
    pub fn full(&self) -> [u8; 32] {
        let b = &self.bytes;
        [
            0, 0, 0, b[0], 0, 0, 0, 0, b[1], b[2], b[3], b[4], b[5], b[6], b[7], b[8], 0, 0, 0, b[9], b[10], b[11],
            b[12], b[13], b[14], b[15], b[16], b[17], b[18], b[19], b[20], b[21],
        ]
    }
}
