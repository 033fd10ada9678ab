//! Δ and the rounding of a response's words.

use crate::raw;

/// Δ, that is 2^(32-b). For b 0 and above 32 it is 0.
pub fn calculate_query_indicator(b: u32) -> u32 {
    // SAFETY: only numbers cross (see `raw`).
    unsafe { raw::ladletwig_calculate_query_indicator(b) }
}

/// `u` in units of Δ: the quotient, one more exactly when the remainder is above Δ/2 (so a tie goes down), modulo
/// 2^b.
pub fn rounded(b: u32, u: u32) -> u32 {
    // SAFETY: only numbers cross (see `raw`).
    unsafe { raw::ladletwig_rounded(b, u) }
}
