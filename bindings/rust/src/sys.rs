//! What `turn_client.h` declares, and two things that it hasn't.

use std::ffi::c_void;

pub use turn_client_sys::*;

/// No status of the header: the system gave no random bytes for a seed.
pub const TURN_NO_RANDOM: i32 = i32::MIN;

extern "C" {
    /// The C library's, with which std is linked.
    pub fn getrandom(bytes: *mut c_void, len: usize, flags: u32) -> isize;
}
