//! Stand-in for the signature scheme, which is no part of the comparison: a key is its bytes, no signature is valid.
use serde::{Deserialize, Serialize};

#[derive(Debug, Clone, Serialize, Deserialize)]
pub struct VerifyingKey(pub Vec<u8>);

impl VerifyingKey {
    pub fn to_bytes(&self) -> Vec<u8> {
        self.0.clone()
    }
}

pub struct SigningKey;

#[derive(Debug, Clone, Serialize, Deserialize)]
pub struct Signature;

pub struct Invalid;

pub fn verify(_key: &VerifyingKey, _message: &[u8], _signature: &Signature) -> Result<(), Invalid> {
    Err(Invalid)
}
