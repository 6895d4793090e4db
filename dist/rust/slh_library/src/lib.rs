//! libslh for C, from source: `libslh.a` and `libslh.so` have the calls of `slh.h`.
pub use slh_exports::*;
