//! Stands for secp256k1-zkp: the curve's types as holders of the bytes that they were made from. They accept anything
//! and give the same bytes back.
//!
//! So no run against the original can show which commitments, generators, public keys and tweaks the real library
//! refuses, nor that what it parses comes out again as the same bytes (`PedersenCommitment::serialize` and so on).
//! Nothing is computed on the curve.

use std::fmt;

#[derive(Clone, Copy, PartialEq, Eq, Debug)]
pub enum UpstreamError {
    InvalidPublicKey,
}

impl fmt::Display for UpstreamError {
    fn fmt(&self, f: &mut fmt::Formatter<'_>) -> fmt::Result {
        f.write_str("not so many bytes")
    }
}

impl std::error::Error for UpstreamError {}

#[derive(Clone, Copy, PartialEq, Eq, Debug)]
pub enum Error {
    Upstream(UpstreamError),
}

impl fmt::Display for Error {
    fn fmt(&self, f: &mut fmt::Formatter<'_>) -> fmt::Result {
        f.write_str("not so many bytes")
    }
}

impl std::error::Error for Error {}

impl From<UpstreamError> for Error {
    fn from(error: UpstreamError) -> Error {
        Error::Upstream(error)
    }
}

macro_rules! holder {
    ($name:ident, $width:literal, $error:ty) => {
        #[derive(Copy, Clone, PartialEq, Eq, PartialOrd, Ord, Hash, Debug)]
        pub struct $name([u8; $width]);

        impl $name {
            /// Only the width can be wrong.
            pub fn from_slice(bytes: &[u8]) -> Result<Self, $error> {
                bytes.try_into().map($name).map_err(|_| UpstreamError::InvalidPublicKey.into())
            }

            pub fn serialize(&self) -> [u8; $width] {
                self.0
            }
        }

        impl fmt::LowerHex for $name {
            fn fmt(&self, f: &mut fmt::Formatter<'_>) -> fmt::Result {
                self.0.iter().try_for_each(|byte| write!(f, "{byte:02x}"))
            }
        }

        impl AsRef<[u8; $width]> for $name {
            fn as_ref(&self) -> &[u8; $width] {
                &self.0
            }
        }
    };
}

holder!(PedersenCommitment, 33, Error);
holder!(Generator, 33, Error);
holder!(PublicKey, 33, UpstreamError);
holder!(SecretKey, 32, UpstreamError);
holder!(Tweak, 32, Error);
holder!(Tag, 32, Error);

pub const ZERO_TWEAK: Tweak = Tweak([0; 32]);

pub trait Signing {}
pub trait Verification {}

pub struct Secp256k1<C> {
    _context: std::marker::PhantomData<C>,
}

pub struct CommitmentSecrets {
    pub value: u64,
    pub value_blinding_factor: Tweak,
    pub generator_blinding_factor: Tweak,
}

pub mod rand {
    pub trait RngCore {}
    pub trait CryptoRng {}
    pub trait Rng: RngCore {}
}

/// What would have to be computed on the curve.
fn not_here() -> ! {
    unimplemented!("nothing is computed on the curve here")
}

pub fn compute_adaptive_blinding_factor<C>(
    _: &Secp256k1<C>,
    _: u64,
    _: Tweak,
    _: &[CommitmentSecrets],
    _: &[CommitmentSecrets],
) -> Tweak {
    not_here()
}

pub mod ecdh {
    pub fn shared_secret_point(_: &super::PublicKey, _: &super::SecretKey) -> [u8; 64] {
        super::not_here()
    }
}

impl PedersenCommitment {
    pub fn new<C>(_: &Secp256k1<C>, _: u64, _: Tweak, _: Generator) -> Self {
        not_here()
    }
}

impl Generator {
    pub fn new_blinded<C>(_: &Secp256k1<C>, _: Tag, _: Tweak) -> Self {
        not_here()
    }

    pub fn new_unblinded<C>(_: &Secp256k1<C>, _: Tag) -> Self {
        not_here()
    }
}

impl PublicKey {
    pub fn from_secret_key<C>(_: &Secp256k1<C>, _: &SecretKey) -> Self {
        not_here()
    }

    pub fn serialize_uncompressed(&self) -> [u8; 65] {
        not_here()
    }
}

pub struct Scalar;

impl From<SecretKey> for Scalar {
    fn from(_: SecretKey) -> Scalar {
        Scalar
    }
}

impl SecretKey {
    pub fn new<R>(_: &mut R) -> Self {
        not_here()
    }

    pub fn add_tweak(self, _: &Scalar) -> Result<Self, UpstreamError> {
        not_here()
    }

    pub fn negate(self) -> Self {
        not_here()
    }
}

impl Tweak {
    pub fn new<R>(_: &mut R) -> Self {
        not_here()
    }

    /// The real one may refuse; this one doesn't.
    pub fn from_inner(bytes: [u8; 32]) -> Result<Self, Error> {
        Ok(Tweak(bytes))
    }
}

impl std::ops::Index<std::ops::RangeFull> for Tweak {
    type Output = [u8];

    fn index(&self, _: std::ops::RangeFull) -> &[u8] {
        &self.0
    }
}

impl From<[u8; 32]> for Tag {
    fn from(bytes: [u8; 32]) -> Tag {
        Tag(bytes)
    }
}
