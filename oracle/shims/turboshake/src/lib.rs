//! Stands in for `turboshake`: what is squeezed out are the lent words of the public matrix.

use std::cell::Cell;

thread_local! {
    static WORDS: Cell<Vec<u32>> = const { Cell::new(Vec::new()) };
}

/// Lends the words that the next squeeze hands out; each lending is good for one squeeze.
pub fn lend(words: &[u32]) {
    WORDS.set(words.to_vec());
}

#[derive(Default)]
pub struct TurboShake128;

impl TurboShake128 {
    pub const DEFAULT_DOMAIN_SEPARATOR: u8 = 0x1f;

    /// The seed plays no part: the words are lent whatever it is.
    pub fn absorb(&mut self, _seed: &[u8]) {}

    pub fn finalize<const DOMAIN_SEPARATOR: u8>(&mut self) {}

    /// Fills the bytes in the machine's own order, because the Rust looks at them as words of the machine.
    pub fn squeeze(&mut self, bytes: &mut [u8]) {
        let words = WORDS.take();
        assert_eq!(bytes.len(), 4 * words.len(), "the lent public matrix has another size");
        for (four, word) in bytes.chunks_exact_mut(4).zip(words) {
            four.copy_from_slice(&word.to_ne_bytes());
        }
    }
}
