// Made by tools/plain_rust.py from crates/slh_params/src/param_set/numbers.rt.
//! The numbers of a parameter set (FIPS 205, sections 5 to 8 and 11).

use super::ParamSet;

impl ParamSet {
    /// n: the length of a hash value in bytes.
    pub fn n(&self) -> usize {
        self.n as usize
    }

    /// lg_w: the bits of a digit of a WOTS+ key; its chains have 2^lg_w values.
    pub fn lg_w(&self) -> u32 {
        self.lg_w
    }

    /// h': the height of an XMSS tree.
    pub fn hp(&self) -> u32 {
        self.hp
    }

    /// d: the layers of the hypertree.
    pub fn d(&self) -> u32 {
        self.d
    }

    /// a: the height of a FORS tree.
    pub fn a(&self) -> u32 {
        self.a
    }

    /// k: the number of FORS trees.
    pub fn k(&self) -> u32 {
        self.k
    }

    /// h: the height of the hypertree, all layers together.
    pub fn h(&self) -> u32 {
        self.hp() * self.d()
    }

    /// The bytes of a message digest that FORS signs.
    pub fn md_len(&self) -> usize {
        (self.k() as usize * self.a() as usize).div_ceil(8)
    }

    /// The bytes of a message digest that choose the tree.
    pub fn tree_len(&self) -> usize {
        ((self.h() - self.hp()) as usize).div_ceil(8)
    }

    /// The bytes of a message digest that choose the leaf.
    pub fn leaf_len(&self) -> usize {
        (self.hp() as usize).div_ceil(8)
    }

    /// m: the length of a message digest in bytes.
    pub fn m(&self) -> usize {
        self.md_len() + self.tree_len() + self.leaf_len()
    }

    /// w: the values of a chain of a WOTS+ key.
    pub fn w(&self) -> u32 {
        1 << self.lg_w()
    }

    /// len_1: the digits of a message that a WOTS+ key signs.
    pub fn len1(&self) -> usize {
        (8 * self.n()).div_ceil(self.lg_w() as usize)
    }

    /// len_2: the digits of the checksum (FIPS 205, section 5, Algorithm 1).
    pub fn len2(&self) -> usize {
        digit_count(self.len1() as u32 * (self.w() - 1), self.w())
    }

    /// len: the chains of a WOTS+ key, one for each digit of the message and of the checksum.
    pub fn len(&self) -> usize {
        self.len1() + self.len2()
    }

    /// The length of a public key in bytes.
    pub fn pk_len(&self) -> usize {
        self.n() + self.n()
    }

    /// The length of a secret key in bytes.
    pub fn sk_len(&self) -> usize {
        4 * self.n()
    }

    /// The length of a signature in bytes.
    pub fn sig_len(&self) -> usize {
        let fors = self.k() as usize * (1 + self.a() as usize);
        let tree = self.h() as usize + self.d() as usize * self.len();
        (1 + fors + tree) * self.n()
    }
}

/// The digits that a number has in a base.
fn digit_count(number: u32, base: u32) -> usize {
    let mut count = 1;
    let mut capacity = base;
    while capacity <= number {
        count += 1;
        capacity *= base;
    }
    count
}
