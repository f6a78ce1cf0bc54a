//! Stands for `src/blind.rs`: names that `lib.rs` re-exports. No reading or writing of a transaction uses them.

pub struct BlindError;
pub struct ConfidentialTxOutError;
pub struct CtLocation;
pub struct CtLocationType;
pub struct RangeProofMessage;
pub struct SurjectionInput;
pub struct TxOutError;
pub struct TxOutSecrets;
pub struct UnblindError;
pub struct VerificationError;
