//! Stand-in: `sync` and `wire` are the store's own files, put here by `build`.
pub mod sync;
pub mod wire;
