//! Keys as other programs read them: SubjectPublicKeyInfo and PKCS#8, as DER and PEM. The proved code reads and writes
//! one form of each set and kind.
#[cfg(feature = "std")]
use std::io::Write;

#[cfg(feature = "std")]
use crate::call::certainly_done;
use crate::{
    Error, PublicKey, SecretKey,
    error::Conversion,
    secrets::Secrets,
    sets::{Bytes, Kind, NAMES, ParameterSet},
    sys,
};

#[cfg(feature = "std")]
impl<P: ParameterSet> PublicKey<P> {
    /// Writes the key as a SubjectPublicKeyInfo in DER. `Error::WriteFailed`.
    pub fn write_der_to(&self, writer: impl Write) -> Result<(), Error> {
        write::<P>(writer, Kind::Public, self.as_bytes().as_ref(), false)
    }

    /// Writes the key as a SubjectPublicKeyInfo in PEM. `Error::WriteFailed`.
    pub fn write_pem_to(&self, writer: impl Write) -> Result<(), Error> {
        write::<P>(writer, Kind::Public, self.as_bytes().as_ref(), true)
    }
}

impl<P: ParameterSet> PublicKey<P> {
    /// The key of a SubjectPublicKeyInfo in DER. All but the one form is `Error::OtherForm`, and a key of another set
    /// `Error::OtherSet`.
    pub fn from_der(der: &[u8]) -> Result<Self, Error> {
        let mut bytes = P::PublicKeyBytes::ZEROS;
        read::<P>(Kind::Public, der, false, bytes.as_mut())?;
        Ok(Self::from_bytes(bytes))
    }

    /// The key of a PEM file, PUBLIC KEY, whose last line feed may be missing. Errors are those of
    /// [`from_der`](PublicKey::from_der).
    pub fn from_pem(pem: &[u8]) -> Result<Self, Error> {
        let mut bytes = P::PublicKeyBytes::ZEROS;
        read::<P>(Kind::Public, pem, true, bytes.as_mut())?;
        Ok(Self::from_bytes(bytes))
    }
}

#[cfg(feature = "std")]
impl<P: ParameterSet> SecretKey<P> {
    /// Writes the key as PKCS#8 in DER, not encrypted. `Error::WriteFailed`.
    pub fn write_der_to(&self, writer: impl Write) -> Result<(), Error> {
        write::<P>(writer, Kind::Secret, self.slice(), false)
    }

    /// Writes the key as PKCS#8 in PEM, not encrypted. `Error::WriteFailed`.
    pub fn write_pem_to(&self, writer: impl Write) -> Result<(), Error> {
        write::<P>(writer, Kind::Secret, self.slice(), true)
    }
}

impl<P: ParameterSet> SecretKey<P> {
    /// The key of a PKCS#8 PrivateKeyInfo in DER. All but the one form is `Error::OtherForm`, as an encrypted key, and
    /// a key of another set `Error::OtherSet`. Call `check` once on a key that comes from elsewhere.
    pub fn from_der(der: &[u8]) -> Result<Self, Error> {
        let mut key = Secrets::zeros(P::SecretKeyBytes::ZEROS.as_ref().len());
        read::<P>(Kind::Secret, der, false, key.bytes_mut())?;
        Self::try_from(key.bytes())
    }

    /// The key of a PEM file, PRIVATE KEY, whose last line feed may be missing. Errors are those of
    /// [`from_der`](SecretKey::from_der).
    pub fn from_pem(pem: &[u8]) -> Result<Self, Error> {
        let mut key = Secrets::zeros(P::SecretKeyBytes::ZEROS.as_ref().len());
        read::<P>(Kind::Secret, pem, true, key.bytes_mut())?;
        Self::try_from(key.bytes())
    }
}

#[cfg(feature = "std")]
fn write<P: ParameterSet>(mut writer: impl Write, kind: Kind, key: &[u8], is_pem: bool) -> Result<(), Error> {
    let (mut len, mut file) = (0, Secrets::zeros(sys::SLH_MAX_PEM));
    certainly_done(sys::pkix_write(is_pem, P::NUMBER, kind as u32, key, &mut len, file.bytes_mut()));
    writer.write_all(&file.bytes()[..len as usize]).map_err(Error::WriteFailed)
}

/// Writes the bytes of a key of this kind and set.
fn read<P: ParameterSet>(kind: Kind, file: &[u8], is_pem: bool, out: &mut [u8]) -> Result<(), Error> {
    let (mut set, mut of_kind, mut key) = (0, 0, Secrets::zeros(sys::SLH_MAX_SECRET_KEY));
    let is_done = sys::pkix_read(is_pem, file, &mut set, &mut of_kind, key.bytes_mut()) == sys::SLH_DONE;
    if !is_done || of_kind != kind as u32 {
        return Err(Error::OtherForm(conversion(kind, file, is_pem, is_done)));
    }
    if set != P::NUMBER {
        return Err(Error::OtherSet { expected: P::NAME, given: NAMES[set as usize - 1].0 });
    }
    out.copy_from_slice(&key.bytes()[..out.len()]);
    Ok(())
}

/// How a file that is refused becomes one that is read.
fn conversion(kind: Kind, file: &[u8], is_pem: bool, is_other_kind: bool) -> Conversion {
    match kind {
        Kind::Public if is_other_kind => Conversion::IsSecret,
        _ if file.starts_with(b"-----BEGIN ENCRYPTED PRIVATE") => Conversion::IsEncrypted,
        Kind::Public if is_pem => Conversion::By("openssl pkey -pubin -in FILE -pubout -out NEW"),
        Kind::Public => Conversion::By("openssl pkey -pubin -inform DER -in FILE -pubout -outform DER -out NEW"),
        Kind::Secret if is_pem => Conversion::By("openssl pkey -in FILE -out NEW"),
        Kind::Secret => Conversion::By("openssl pkey -inform DER -in FILE -outform DER -out NEW"),
    }
}
