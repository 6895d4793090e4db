#![doc = include_str!("../README.md")]
#![no_std]
// Each module but `vectors` forbids it.
#![deny(unsafe_code)]
// The comments of types that `alloc` has link to calls of other features.
#![cfg_attr(not(all(feature = "std", feature = "pkcs8")), allow(rustdoc::broken_intra_doc_links))]

#[cfg(feature = "alloc")]
extern crate alloc;
// The macros of thiserror 1 write `std::`, those of thiserror 2 `core::`.
#[cfg(not(feature = "std"))]
extern crate core as std;
#[cfg(feature = "std")]
extern crate std;

/// Declares modules that `tools/plain_rust.py` made of the proved crates.
macro_rules! proved {
    ($($(#[$attribute:meta])* $visible:vis $module:ident;)*) => {
        $(
            $(#[$attribute])*
            #[forbid(unsafe_code)]
            // Imports, constants and parameters that only clauses name.
            #[allow(dead_code, unused_imports, unused_variables)]
            // The names of the sets are the standard's. rustc before 1.89 has no lint of lifetimes that are not
            // written.
            #[allow(non_upper_case_globals, unknown_lints, mismatched_lifetime_syntaxes)]
            // The text is as the prover reads it best, and each copy of bytes is on the stack.
            #[allow(clippy::needless_range_loop, clippy::manual_memcpy, clippy::manual_range_contains)]
            #[allow(clippy::misnamed_getters, clippy::needless_question_mark, clippy::manual_is_ascii_check)]
            #[allow(clippy::too_many_arguments, clippy::large_enum_variant, clippy::len_without_is_empty)]
            #[allow(clippy::new_without_default, clippy::question_mark, clippy::manual_div_ceil)]
            $visible mod $module;
        )*
    };
}

proved! {
    #[doc(hidden)]
    pub slh_c;
    #[doc(hidden)]
    pub slh_c_verify;
    pub slh_core;
    slh_few;
    slh_hash;
    slh_jobs;
    #[doc(hidden)]
    pub slh_key_files;
    slh_lanes;
    slh_params;
    slh_subtrees;
    slh_tree;
    slh_width;
}

#[forbid(unsafe_code)]
mod levels;
#[cfg(feature = "alloc")]
#[doc(hidden)]
#[forbid(unsafe_code)]
pub mod memory;
#[doc(hidden)]
#[forbid(unsafe_code)]
pub mod refusal_text;
#[allow(unsafe_code)]
mod vectors;

/// Declares the modules of the package, over the calls of the proved code.
macro_rules! package {
    ($feature:literal: $($module:ident)*) => {
        $(
            #[cfg(feature = $feature)]
            // Some unit tests read memory that was erased.
            #[cfg_attr(not(test), forbid(unsafe_code))]
            // Kinds of keys and names of sets serve key files and DER alone.
            #[cfg_attr(not(any(feature = "std", feature = "pkcs8")), allow(dead_code))]
            mod $module;
        )*
    };
}

package! { "alloc": any call error many options public secret secrets sets signature stack sys }
package! { "std": jobs key_file random }
package! { "pkcs8": pkix }
package! { "rand_core": rng }
package! { "zeroize": zeroizing }

#[cfg(feature = "alloc")]
#[allow(dead_code)]
#[forbid(unsafe_code)]
mod numbers;

#[cfg(feature = "std")]
pub use jobs::Workers;
#[cfg(feature = "rand_core")]
pub use rng::{FromRng, SignWithRng};
#[cfg(feature = "alloc")]
pub use {
    any::{AnyPublicKey, AnySecretKey},
    error::{Conversion, Error, Refusal},
    many::{Signed, verify_many},
    options::{Options, Randomizer},
    public::{PublicKey, Verifier},
    secret::{SecretKey, Signer},
    sets::{
        Bytes, Function, ParameterSet, SlhDsaSha2_128f, SlhDsaSha2_128s, SlhDsaSha2_192f, SlhDsaSha2_192s,
        SlhDsaSha2_256f, SlhDsaSha2_256s,
    },
    signature::Signature,
};

/// The version of the package: 1,000,000 times its first number, 1,000 times its second, and its third.
pub fn version() -> u32 {
    slh_c::version::slh_version()
}
