//! Compares each operation on vectors with the same on arrays, on random words. The modules are read as files here, so
//! that rustc alone compiles this test, for each level of a processor.
#![allow(dead_code)]

#[path = "../src/vectors.rs"]
mod vectors;

use core::array::from_fn;
use vectors::*;

const TURNS: usize = 2000;

/// Random words by xorshift, with all bits 0 or 1 now and then.
struct Words(u64);

impl Words {
    fn next(&mut self) -> u64 {
        self.0 ^= self.0 << 13;
        self.0 ^= self.0 >> 7;
        self.0 ^= self.0 << 17;
        match self.0 % 8 {
            0 => 0,
            1 => u64::MAX,
            _ => self.0.wrapping_mul(0x2545_f491_4f6c_dd1d),
        }
    }
}

/// Whether the processor has the instructions of a level. Without a level it is that of the build.
macro_rules! has {
    () => {
        true
    };
    (Avx2) => {
        is_x86_feature_detected!("avx2")
    };
}

macro_rules! compares {
    ($name:ident, $word:ty, $other:ty, $count:literal $(, $level:ident)?) => {
        #[test]
        fn $name() {
            type Vector = Simd<$word, $count $(, $level)?>;
            if !has!($($level)?) {
                return;
            }
            let mut words = Words(0x9e37_79b9_7f4a_7c15);
            for turn in 0..TURNS {
                let x: [$word; $count] = from_fn(|_| words.next() as $word);
                let y: [$word; $count] = from_fn(|lane| if lane % 3 == 0 { x[lane] } else { words.next() as $word });
                let (p, q) = (Vector::from_array(x), Vector::from_array(y));
                let each = |of: fn($word, $word) -> $word| Vector::from_array(from_fn(|lane| of(x[lane], y[lane])));
                assert_eq!(p.to_array(), x);
                assert_eq!(p + q, each(<$word>::wrapping_add));
                assert_eq!(p - q, each(<$word>::wrapping_sub));
                assert_eq!(p ^ q, each(|x, y| x ^ y));
                assert_eq!(p & q, each(|x, y| x & y));
                assert_eq!(p | q, each(|x, y| x | y));
                let bits = turn as $word % <$word>::BITS as $word;
                assert_eq!(p << bits, Vector::from_array(x.map(|word| word << bits)));
                assert_eq!(p >> bits, Vector::from_array(x.map(|word| word >> bits)));
                assert_eq!(Vector::splat(x[0]), Vector::from_array([x[0]; $count]));
                assert_eq!(p.cast::<$other>().to_array(), x.map(|word| word as $other));
            }
        }
    };
}

macro_rules! chooses {
    ($name:ident, $word:ty, $count:literal) => {
        #[test]
        fn $name() {
            type Vector = Simd<$word, $count>;
            let mut words = Words(0x9e37_79b9_7f4a_7c15);
            for _ in 0..TURNS {
                let x: [$word; $count] = from_fn(|_| words.next() as $word);
                let y: [$word; $count] = from_fn(|lane| if lane % 3 == 0 { x[lane] } else { words.next() as $word });
                let (p, q) = (Vector::from_array(x), Vector::from_array(y));
                let each = |of: fn($word, $word) -> $word| Vector::from_array(from_fn(|lane| of(x[lane], y[lane])));
                assert_eq!(p.simd_lt(q).select(p, q), each(<$word>::min));
                assert_eq!(p.simd_eq(q).select(q, p), p);
                assert_eq!(p.simd_eq(q).select(p, Vector::splat(0)), each(|x, y| if x == y { x } else { 0 }));
            }
        }
    };
}

chooses!(choosing_eight_short, u32, 8);
chooses!(choosing_sixteen_short, u32, 16);
chooses!(choosing_eight_long, u64, 8);
compares!(one_short, u32, u64, 1);
compares!(two_short, u32, u64, 2);
compares!(four_short, u32, u64, 4);
compares!(eight_short, u32, u64, 8);
compares!(sixteen_short, u32, u64, 16);
compares!(one_long, u64, u32, 1);
compares!(two_long, u64, u32, 2);
compares!(four_long, u64, u32, 4);
compares!(eight_long, u64, u32, 8);
compares!(sixteen_long, u64, u32, 16);

#[cfg(target_arch = "x86_64")]
compares!(four_short_by_avx2, u32, u64, 4, Avx2);
#[cfg(target_arch = "x86_64")]
compares!(eight_short_by_avx2, u32, u64, 8, Avx2);
#[cfg(target_arch = "x86_64")]
compares!(sixteen_short_by_avx2, u32, u64, 16, Avx2);
#[cfg(target_arch = "x86_64")]
compares!(four_long_by_avx2, u64, u32, 4, Avx2);
#[cfg(target_arch = "x86_64")]
compares!(eight_long_by_avx2, u64, u32, 8, Avx2);
