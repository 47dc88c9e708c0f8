//! The `sha3` crate's SHA3-256 under a C name.
use sha3::{Digest, Sha3_256};

/// # Safety
/// `message` is `length` bytes and `hash` is 32.
#[no_mangle]
pub unsafe extern "C" fn crate_sha3_256(message: *const u8, length: usize, hash: *mut u8) {
    let digest = Sha3_256::digest(std::slice::from_raw_parts(message, length));
    std::ptr::copy_nonoverlapping(digest.as_ptr(), hash, 32);
}
