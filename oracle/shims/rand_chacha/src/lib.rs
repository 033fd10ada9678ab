//! Stands in for `rand_chacha`: the generator that the Rust names reads the lent words of the `rand` beside it.

pub use rand::LentRng as ChaCha8Rng;
