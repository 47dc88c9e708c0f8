//! Stand-in for the similarity hash, which is no part of the comparison.
use serde::{Deserialize, Serialize};

pub const COHERENCE_THRESHOLD: u32 = 0;

#[derive(Debug, Clone, Serialize, Deserialize)]
pub struct SimHash;

impl SimHash {
    pub fn from_structural(_parents: &[[u8; 32]], _history_root: &[u8; 32]) -> Self {
        SimHash
    }

    pub fn is_coherent(&self, _other: &SimHash, _threshold: u32) -> bool {
        true
    }
}
