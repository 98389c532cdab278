//! The functions of the library for C, and the memory that is lent to them.

#[path = "../include/lacrivosum.rs"]
mod declared;
pub use declared::*;

/// Lent bytes: an allocation of just this length, also of none.
pub fn lent(bytes: &[u8]) -> Box<[u8]> {
    bytes.to_vec().into_boxed_slice()
}
