//! The code for AVX2, which runs where the processor has it.
//!
//! The rounds of SHA-2 and the steps of chains are compiled twice: for the instructions of the build, and for AVX2.
//! With the feature `std` each call of them asks what the processor has. Without it, on other processors, and if the
//! build is for AVX2 or better, they are compiled for the build alone.
//!
//! No function here is compiled for vectors that are longer than a register, since no width asks for such vectors. With
//! them rustc took three times as long.

use crate::slh_lanes::long_words::LongWords;
use crate::slh_lanes::rounds::{self, Rounds};
use crate::slh_lanes::{chains, eight_blocks, lanes::Lanes};
use crate::slh_width::Width;
use crate::vectors::{self, Avx2, Simd, u64x4};

/// Returns a value that is computed by AVX2, if it is compiled twice, the vectors are no longer than AVX2's registers,
/// and the processor has AVX2.
macro_rules! by_avx2 {
    ($vector:ty, $it:expr) => {
        #[cfg(all(target_arch = "x86_64", feature = "std", not(target_feature = "avx2")))]
        if const { size_of::<$vector>() <= vectors::AVX2_REGISTER } {
            if let Some(value) = vectors::by_avx2($it) {
                return value;
            }
        }
    };
}

/// Panics if the vectors are longer than the registers of the build.
macro_rules! need_register {
    ($vector:ty) => {
        if const { size_of::<$vector>() > vectors::REGISTER } {
            unreachable!("no width of this build has such vectors");
        }
    };
}

/// How many words of 32 bits are hashed side by side.
pub(crate) fn short() -> Width {
    #[cfg(all(target_arch = "x86_64", feature = "std", not(target_feature = "avx2")))]
    if std::is_x86_feature_detected!("avx2") {
        return Width::Eight;
    }
    match vectors::REGISTER {
        64 => Width::Sixteen,
        32 => Width::Eight,
        16 => Width::Four,
        _ => Width::One,
    }
}

/// How many words of 64 bits are hashed side by side. Four fill two registers of 16 bytes.
pub(crate) fn long() -> Width {
    match vectors::REGISTER {
        64 => Width::Eight,
        16 | 32 => Width::Four,
        _ => Width::One,
    }
}

/// `rounds::compress` of vectors.
pub(crate) fn compress<T: Copy, const N: usize>(state: &mut [Simd<T, N>; 8], block: &[Simd<T, N>; 16])
where
    Simd<T, N>: Lanes,
    Simd<T, N, Avx2>: Lanes,
{
    by_avx2!(Simd<T, N>, avx2::Compress { state, block });
    need_register!(Simd<T, N>);
    rounds::compress(state, block)
}

/// `eight_blocks::compress_part` of four words of 64 bits.
pub(crate) fn compress_four(state: &mut [LongWords; 8], block: &[LongWords; 16], first: usize) {
    by_avx2!(u64x4, avx2::CompressFour { state, block, first });
    eight_blocks::compress_part::<LongWords, u64x4, Rounds>(state, block, first)
}

/// `chains::run` of vectors.
pub(crate) fn run<const N: usize>(
    short: &[u32; 8],
    n: usize,
    adrs: &[Simd<u32, N>; 6],
    x: &[Simd<u32, N>; 8],
    from: Simd<u32, N>,
    counts: Simd<u32, N>,
) -> [Simd<u32, N>; 8] {
    by_avx2!(Simd<u32, N>, avx2::Run { short, n, adrs, x, from, counts });
    need_register!(Simd<u32, N>);
    chains::run::<_, Rounds>(short, n, adrs, x, from, counts)
}

/// The functions again, by vectors of AVX2. All that they call is inlined.
#[cfg(all(target_arch = "x86_64", feature = "std", not(target_feature = "avx2")))]
mod avx2 {
    use super::{Avx2, Lanes, LongWords, Rounds, Simd, chains, eight_blocks, rounds};
    use crate::vectors::{ByAvx2, Level};
    use core::array::from_fn;

    pub struct Compress<'a, T, const N: usize> {
        pub state: &'a mut [Simd<T, N>; 8],
        pub block: &'a [Simd<T, N>; 16],
    }

    pub struct CompressFour<'a> {
        pub state: &'a mut [LongWords; 8],
        pub block: &'a [LongWords; 16],
        pub first: usize,
    }

    pub struct Run<'a, const N: usize> {
        pub short: &'a [u32; 8],
        pub n: usize,
        pub adrs: &'a [Simd<u32, N>; 6],
        pub x: &'a [Simd<u32, N>; 8],
        pub from: Simd<u32, N>,
        pub counts: Simd<u32, N>,
    }

    /// The vectors with the same words at another level.
    #[inline(always)]
    fn at_level<T: Copy, const N: usize, const M: usize, K: Level, L: Level>(
        vectors: &[Simd<T, N, K>; M],
    ) -> [Simd<T, N, L>; M] {
        from_fn(|it| Simd::from_array(vectors[it].to_array()))
    }

    impl<T: Copy, const N: usize> ByAvx2 for Compress<'_, T, N>
    where
        Simd<T, N, Avx2>: Lanes,
    {
        type Value = ();

        #[inline(always)]
        fn compute(self) {
            let mut state = at_level(self.state);
            rounds::compress::<Simd<T, N, Avx2>>(&mut state, &at_level(self.block));
            *self.state = at_level(&state);
        }
    }

    impl ByAvx2 for CompressFour<'_> {
        type Value = ();

        #[inline(always)]
        fn compute(self) {
            eight_blocks::compress_part::<LongWords, Simd<u64, 4, Avx2>, Rounds>(self.state, self.block, self.first)
        }
    }

    impl<const N: usize> ByAvx2 for Run<'_, N> {
        type Value = [Simd<u32, N>; 8];

        #[inline(always)]
        fn compute(self) -> Self::Value {
            let (adrs, x) = (at_level(self.adrs), at_level(self.x));
            let [from, counts] = at_level(&[self.from, self.counts]);
            let ends = chains::run::<Simd<u32, N, Avx2>, Rounds>(self.short, self.n, &adrs, &x, from, counts);
            at_level(&ends)
        }
    }
}
