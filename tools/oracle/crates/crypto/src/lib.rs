//! Stand-in: `hash` and `types` are the store's own files, put here by `build`.
pub mod hash;
pub mod signature;
pub mod types;

pub use signature::verify;
