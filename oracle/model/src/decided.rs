//! Not of document 01, and by another hand: what the library answers for a b that 01 doesn't allow, where 01 is silent and
//! the model has 0. docs/DECISIONS.md, 24, has the reasons. For 01's b this is the model.

/// Δ as long as 2^(32-b) is a u32; 0 for b 0 and above 32.
pub fn calculate_query_indicator(b: u32) -> u32 {
    match b {
        4..=14 => crate::calculate_query_indicator(b),
        1..=32 => 1 << (32 - b),
        _ => 0,
    }
}

/// 01's rounding by that Δ. For b 0 everything is 0 modulo 1; from 32 on Δ counts as 1, and a word is its own multiple.
pub fn rounded(b: u32, u: u32) -> u32 {
    let delta = calculate_query_indicator(b);
    match b {
        4..=14 => crate::rounded(b, u),
        1..=31 => (u / delta + u32::from(u % delta > delta / 2)) % (1 << b),
        0 => 0,
        _ => u,
    }
}
