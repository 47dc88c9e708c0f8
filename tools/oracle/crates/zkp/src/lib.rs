//! Stand-in for confidential outputs, which are no part of the comparison.
use serde::{Deserialize, Serialize};

#[derive(Debug, Clone, Serialize, Deserialize)]
pub struct ConfidentialOutput;
