//! Words side by side, one in each lane: the calls of `std::simd` that the lanes use, on stable Rust.
//!
//! A vector is an array. Sums, shifts and the operations on bits are done register by register, by the instructions of
//! the vector's level: those that the crate is compiled for (SSE2, AVX2, AVX-512 or NEON), or AVX2. Otherwise, and for
//! vectors shorter than a register, they are done word by word. All other calls are done word by word. Each operation
//! gives the same words on each processor: `tests/lanes.rs` compares them with arrays.
#![allow(unused_unsafe)]

use core::array::from_fn;
use core::marker::PhantomData;
use core::ops::{Add, BitAnd, BitOr, BitXor, Shl, Shr, Sub};

/// Words side by side, one in each lane.
#[derive(Clone, Copy, PartialEq, Eq, Debug)]
#[repr(transparent)]
pub struct Simd<T, const N: usize, L = Build>([T; N], PhantomData<L>);

/// The instructions by which vectors are added, shifted, and so on.
pub trait Level: Copy {
    /// Whether those of AVX2 are among them.
    const AVX2: bool = AVX2;
}

/// The instructions that the crate is compiled for.
#[derive(Clone, Copy, PartialEq, Eq, Debug)]
pub struct Build;

/// The same, and those of AVX2. Only code that has found out that the processor has them makes such vectors.
#[derive(Clone, Copy, PartialEq, Eq, Debug)]
pub struct Avx2;

impl Level for Build {}

impl Level for Avx2 {
    const AVX2: bool = true;
}

/// A truth value for each lane.
#[derive(Clone, Copy, PartialEq, Eq, Debug)]
pub struct Mask<const N: usize>([bool; N]);

/// Four words of 32 bits.
#[allow(non_camel_case_types)]
pub type u32x4 = Simd<u32, 4>;
/// Eight words of 32 bits.
#[allow(non_camel_case_types)]
pub type u32x8 = Simd<u32, 8>;
/// Sixteen words of 32 bits.
#[allow(non_camel_case_types)]
pub type u32x16 = Simd<u32, 16>;
/// Two words of 64 bits.
#[allow(non_camel_case_types)]
pub type u64x2 = Simd<u64, 2>;
/// Four words of 64 bits.
#[allow(non_camel_case_types)]
pub type u64x4 = Simd<u64, 4>;
/// Eight words of 64 bits.
#[allow(non_camel_case_types)]
pub type u64x8 = Simd<u64, 8>;

const AVX512: bool = cfg!(all(target_arch = "x86_64", target_feature = "avx512f"));
const AVX2: bool = cfg!(all(target_arch = "x86_64", target_feature = "avx2"));
const SSE2: bool = cfg!(all(target_arch = "x86_64", target_feature = "sse2"));
const NEON: bool = cfg!(all(target_arch = "aarch64", target_feature = "neon", target_endian = "little"));

/// The bytes of the longest register of the build, or of a word if it has none.
pub(crate) const REGISTER: usize = if AVX512 {
    64
} else if AVX2 {
    AVX2_REGISTER
} else if SSE2 || NEON {
    16
} else {
    8
};

/// The bytes of a register of AVX2.
pub(crate) const AVX2_REGISTER: usize = 32;

/// A computation by vectors of AVX2. What its method calls is compiled for AVX2 only if it is inlined always.
#[cfg(all(target_arch = "x86_64", feature = "std", not(target_feature = "avx2")))]
pub trait ByAvx2 {
    type Value;
    fn compute(self) -> Self::Value;
}

/// Computes it if the processor has AVX2.
#[cfg(all(target_arch = "x86_64", feature = "std", not(target_feature = "avx2")))]
pub(crate) fn by_avx2<It: ByAvx2>(it: It) -> Option<It::Value> {
    #[target_feature(enable = "avx2")]
    unsafe fn compiled<It: ByAvx2>(it: It) -> It::Value {
        it.compute()
    }
    // Safety: the processor has AVX2.
    std::is_x86_feature_detected!("avx2").then(|| unsafe { compiled(it) })
}

/// A register with words of 32 or 64 bits. Its methods are instructions that the processor of this build has.
#[allow(dead_code)]
trait Register: Copy {
    fn load(from: *const Self) -> Self;
    fn store(self, to: *mut Self);
    fn xor(self, other: Self) -> Self;
    fn and(self, other: Self) -> Self;
    fn or(self, other: Self) -> Self;
    fn add_32(self, other: Self) -> Self;
    fn add_64(self, other: Self) -> Self;
    fn sub_32(self, other: Self) -> Self;
    fn sub_64(self, other: Self) -> Self;
    fn left_32(self, bits: u32) -> Self;
    fn left_64(self, bits: u32) -> Self;
    fn right_32(self, bits: u32) -> Self;
    fn right_64(self, bits: u32) -> Self;
}

/// Implements `Register` by an expression for each method. All run only on processors that have the instructions: each
/// use is under the `cfg` of their target feature, or asks the level.
#[allow(unused_macros)]
macro_rules! register {
    ($type:ty, $from:ident, $x:ident, $y:ident, $bits:ident, load: $load:expr, store: $store:expr,
     $($name:ident: $value:expr,)*; $($shift:ident: $shifted:expr,)*) => {
        impl Register for $type {
            #[inline(always)]
            fn load($from: *const Self) -> Self {
                // Safety: `pieces` gives pointers to the bytes of a value, and no alignment is asked for.
                unsafe { $load }
            }
            #[inline(always)]
            fn store(self, $from: *mut Self) {
                let $x = self;
                // Safety: as for `load`.
                unsafe { $store }
            }
            $(#[inline(always)]
            fn $name(self, $y: Self) -> Self {
                let $x = self;
                // Safety: the processor has the instruction.
                unsafe { $value }
            })*
            $(#[inline(always)]
            fn $shift(self, $bits: u32) -> Self {
                let $x = self;
                // Safety: the processor has the instruction.
                unsafe { $shifted }
            })*
        }
    };
}

#[cfg(target_arch = "x86_64")]
use core::arch::x86_64::*;

#[cfg(all(target_arch = "x86_64", target_feature = "sse2"))]
register! { __m128i, at, x, y, bits,
    load: _mm_loadu_si128(at),
    store: _mm_storeu_si128(at, x),
    xor: _mm_xor_si128(x, y),
    and: _mm_and_si128(x, y),
    or: _mm_or_si128(x, y),
    add_32: _mm_add_epi32(x, y),
    add_64: _mm_add_epi64(x, y),
    sub_32: _mm_sub_epi32(x, y),
    sub_64: _mm_sub_epi64(x, y),
    ;
    left_32: _mm_sll_epi32(x, _mm_cvtsi32_si128(bits as i32)),
    left_64: _mm_sll_epi64(x, _mm_cvtsi32_si128(bits as i32)),
    right_32: _mm_srl_epi32(x, _mm_cvtsi32_si128(bits as i32)),
    right_64: _mm_srl_epi64(x, _mm_cvtsi32_si128(bits as i32)),
}

#[cfg(target_arch = "x86_64")]
register! { __m256i, at, x, y, bits,
    load: _mm256_loadu_si256(at),
    store: _mm256_storeu_si256(at, x),
    xor: _mm256_xor_si256(x, y),
    and: _mm256_and_si256(x, y),
    or: _mm256_or_si256(x, y),
    add_32: _mm256_add_epi32(x, y),
    add_64: _mm256_add_epi64(x, y),
    sub_32: _mm256_sub_epi32(x, y),
    sub_64: _mm256_sub_epi64(x, y),
    ;
    left_32: _mm256_sll_epi32(x, _mm_cvtsi32_si128(bits as i32)),
    left_64: _mm256_sll_epi64(x, _mm_cvtsi32_si128(bits as i32)),
    right_32: _mm256_srl_epi32(x, _mm_cvtsi32_si128(bits as i32)),
    right_64: _mm256_srl_epi64(x, _mm_cvtsi32_si128(bits as i32)),
}

#[cfg(all(target_arch = "x86_64", target_feature = "avx512f"))]
register! { __m512i, at, x, y, bits,
    load: _mm512_loadu_si512(at.cast()),
    store: _mm512_storeu_si512(at.cast(), x),
    xor: _mm512_xor_si512(x, y),
    and: _mm512_and_si512(x, y),
    or: _mm512_or_si512(x, y),
    add_32: _mm512_add_epi32(x, y),
    add_64: _mm512_add_epi64(x, y),
    sub_32: _mm512_sub_epi32(x, y),
    sub_64: _mm512_sub_epi64(x, y),
    ;
    left_32: _mm512_sll_epi32(x, _mm_cvtsi32_si128(bits as i32)),
    left_64: _mm512_sll_epi64(x, _mm_cvtsi32_si128(bits as i32)),
    right_32: _mm512_srl_epi32(x, _mm_cvtsi32_si128(bits as i32)),
    right_64: _mm512_srl_epi64(x, _mm_cvtsi32_si128(bits as i32)),
}

#[cfg(all(target_arch = "aarch64", target_feature = "neon", target_endian = "little"))]
use core::arch::aarch64::*;

#[cfg(all(target_arch = "aarch64", target_feature = "neon", target_endian = "little"))]
register! { uint32x4_t, at, x, y, bits,
    load: vld1q_u32(at.cast()),
    store: vst1q_u32(at.cast(), x),
    xor: veorq_u32(x, y),
    and: vandq_u32(x, y),
    or: vorrq_u32(x, y),
    add_32: vaddq_u32(x, y),
    add_64: vreinterpretq_u32_u64(vaddq_u64(vreinterpretq_u64_u32(x), vreinterpretq_u64_u32(y))),
    sub_32: vsubq_u32(x, y),
    sub_64: vreinterpretq_u32_u64(vsubq_u64(vreinterpretq_u64_u32(x), vreinterpretq_u64_u32(y))),
    ;
    left_32: vshlq_u32(x, vdupq_n_s32(bits as i32)),
    left_64: vreinterpretq_u32_u64(vshlq_u64(vreinterpretq_u64_u32(x), vdupq_n_s64(bits as i64))),
    right_32: vshlq_u32(x, vdupq_n_s32(-(bits as i32))),
    right_64: vreinterpretq_u32_u64(vshlq_u64(vreinterpretq_u64_u32(x), vdupq_n_s64(-(bits as i64)))),
}

/// The operation on each piece of two vectors that fills a register. The vectors are 1, 2, 4 or 8 registers long.
/// The pieces are written out: with a loop in each operation of each round LLVM took minutes.
#[allow(dead_code)]
#[inline(always)]
fn pieces<R: Register, A: Copy>(x: A, y: A, operation: impl Fn(R, R) -> R) -> A {
    const { assert!(size_of::<A>() <= 8 * size_of::<R>()) };
    let mut out = x;
    let (from_x, from_y) = (&raw const x as *const R, &raw const y as *const R);
    let to = &raw mut out as *mut R;
    let at = |piece: usize| {
        // Safety: the place is within the value, which has more registers than `piece`.
        let (x, y, to) = unsafe { (from_x.add(piece), from_y.add(piece), to.add(piece)) };
        operation(R::load(x), R::load(y)).store(to);
    };
    at(0);
    if size_of::<A>() > size_of::<R>() {
        at(1);
    }
    if size_of::<A>() > 2 * size_of::<R>() {
        at(2);
        at(3);
    }
    if size_of::<A>() > 4 * size_of::<R>() {
        at(4);
        at(5);
        at(6);
        at(7);
    }
    out
}

/// Returns the operation on two vectors by the longest registers that fill them. If there are no such registers, the
/// code after the macro runs.
macro_rules! by_registers {
    ($x:expr, $y:expr, $operation:expr) => {
        #[cfg(all(target_arch = "x86_64", target_feature = "avx512f"))]
        if size_of::<Self>() % 64 == 0 {
            return pieces::<__m512i, Self>($x, $y, $operation);
        }
        #[cfg(target_arch = "x86_64")]
        if L::AVX2 && size_of::<Self>() % 32 == 0 {
            return pieces::<__m256i, Self>($x, $y, $operation);
        }
        #[cfg(all(target_arch = "x86_64", target_feature = "sse2"))]
        if size_of::<Self>() % 16 == 0 {
            return pieces::<__m128i, Self>($x, $y, $operation);
        }
        #[cfg(all(target_arch = "aarch64", target_feature = "neon", target_endian = "little"))]
        if size_of::<Self>() % 16 == 0 {
            return pieces::<uint32x4_t, Self>($x, $y, $operation);
        }
    };
}

/// An operator on two vectors: by registers, or word by word.
macro_rules! operator {
    ($word:ty, $trait:ident, $name:ident, $register:ident, $of_words:expr) => {
        impl<const N: usize, L: Level> $trait for Simd<$word, N, L> {
            type Output = Self;

            #[inline(always)]
            fn $name(self, other: Self) -> Self {
                by_registers!(self, other, |x, y| Register::$register(x, y));
                #[allow(unreachable_code)]
                Simd::from_array(from_fn(|lane| $of_words(self.0[lane], other.0[lane])))
            }
        }
    };
}

/// A shift of all words by fewer bits than a word has: by registers, or word by word.
macro_rules! shift {
    ($word:ty, $trait:ident, $name:ident, $register:ident) => {
        impl<const N: usize, L: Level> $trait<$word> for Simd<$word, N, L> {
            type Output = Self;

            #[inline(always)]
            fn $name(self, bits: $word) -> Self {
                by_registers!(self, self, |x, _| Register::$register(x, bits as u32));
                #[allow(unreachable_code)]
                Simd::from_array(self.0.map(|word| word.$name(bits)))
            }
        }
    };
}

/// All that the lanes do with words of a length.
macro_rules! words {
    ($word:ty, $other:ty, $add:ident, $sub:ident, $left:ident, $right:ident) => {
        operator!($word, Add, add, $add, <$word>::wrapping_add);
        operator!($word, Sub, sub, $sub, <$word>::wrapping_sub);
        operator!($word, BitXor, bitxor, xor, <$word>::bitxor);
        operator!($word, BitAnd, bitand, and, <$word>::bitand);
        operator!($word, BitOr, bitor, or, <$word>::bitor);
        shift!($word, Shl, shl, $left);
        shift!($word, Shr, shr, $right);

        impl<const N: usize, L: Level> Compare<N> for Simd<$word, N, L> {
            #[inline(always)]
            fn simd_lt(self, other: Self) -> Mask<N> {
                Mask(from_fn(|lane| self.0[lane] < other.0[lane]))
            }

            #[inline(always)]
            fn simd_eq(self, other: Self) -> Mask<N> {
                Mask(from_fn(|lane| self.0[lane] == other.0[lane]))
            }
        }

        impl Cast<$other> for $word {
            #[inline(always)]
            fn cast(self) -> $other {
                self as $other
            }
        }
    };
}

/// Comparisons lane by lane.
pub trait Compare<const N: usize> {
    /// The lanes in which the word is below the other's.
    fn simd_lt(self, other: Self) -> Mask<N>;

    /// The lanes in which both have one word.
    fn simd_eq(self, other: Self) -> Mask<N>;
}

/// Words that can be cast to others, without the bits for which there is no room.
pub trait Cast<U>: Copy {
    /// The word as the other kind.
    fn cast(self) -> U;
}

words!(u32, u64, add_32, sub_32, left_32, right_32);
words!(u64, u32, add_64, sub_64, left_64, right_64);

impl<T: Copy, const N: usize, L: Level> Simd<T, N, L> {
    /// One word in all lanes.
    #[inline(always)]
    pub fn splat(word: T) -> Self {
        Simd([word; N], PhantomData)
    }

    /// The words, one in each lane.
    #[inline(always)]
    pub fn from_array(words: [T; N]) -> Self {
        Simd(words, PhantomData)
    }

    /// The word of each lane.
    #[inline(always)]
    pub fn to_array(self) -> [T; N] {
        self.0
    }

    /// Each word as the other kind.
    #[inline(always)]
    pub fn cast<U: Copy>(self) -> Simd<U, N, L>
    where
        T: Cast<U>,
    {
        Simd::from_array(self.0.map(T::cast))
    }
}

impl<const N: usize> Mask<N> {
    /// In each lane the word of `x` if the mask is true there, else that of `y`.
    #[inline(always)]
    pub fn select<T: Copy, L: Level>(self, x: Simd<T, N, L>, y: Simd<T, N, L>) -> Simd<T, N, L> {
        Simd::from_array(from_fn(|lane| if self.0[lane] { x.0[lane] } else { y.0[lane] }))
    }
}
