//! Document 01's limits in place of the Rust's parameters. The widths have to be constants: the Rust matches on them.

pub const MIN_CIPHER_TEXT_BIT_LEN: usize = 4;
pub const MAX_CIPHER_TEXT_BIT_LEN: usize = 14;
pub const HASHED_KEY_BYTE_LEN: usize = 32;
pub const SEED_BYTE_LEN: usize = 32;

/// What LWE_DIMENSION is patched to.
pub fn lwe_dimension() -> u32 {
    crate::lent::dimension()
}
