//! Stands for `src/schnorr.rs`: names that `lib.rs` re-exports and `script.rs` makes taproot scripts from. No reading
//! or writing of a transaction uses them.

use crate::taproot::TapNodeHash;
use secp256k1_zkp::{PublicKey, Secp256k1, Verification};

pub struct SchnorrSig;
pub struct SchnorrSigError;

pub type UntweakedPublicKey = PublicKey;

pub struct TweakedPublicKey(PublicKey);

impl TweakedPublicKey {
    pub fn as_inner(&self) -> &PublicKey {
        &self.0
    }
}

pub trait TapTweak {
    fn tap_tweak<C: Verification>(
        self,
        secp: &Secp256k1<C>,
        merkle_root: Option<TapNodeHash>,
    ) -> (TweakedPublicKey, bool);
}

impl TapTweak for PublicKey {
    fn tap_tweak<C: Verification>(self, _: &Secp256k1<C>, _: Option<TapNodeHash>) -> (TweakedPublicKey, bool) {
        unimplemented!("nothing is computed on the curve here")
    }
}
