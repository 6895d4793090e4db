//! The traits of the crate zeroize.

use zeroize::ZeroizeOnDrop;

use crate::{AnySecretKey, ParameterSet, SecretKey};

impl<P: ParameterSet> ZeroizeOnDrop for SecretKey<P> {}

impl ZeroizeOnDrop for AnySecretKey {}
