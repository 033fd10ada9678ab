//! Stands in for `rand`: random words are lent instead of drawn, and what is read of them is counted.
//!
//! The queue belongs to the thread. A generator takes it when it is made and puts it back when it is dropped, so that
//! the second generator of one query goes on where the first one stopped, and a read needs no look at thread storage.

use std::cell::Cell;
use std::panic::resume_unwind;

/// What a read past the last lent word unwinds with; whoever lends the words catches it.
#[derive(Clone, Copy, Debug, PartialEq, Eq)]
pub struct WordsEnd;

#[derive(Default)]
struct Queue {
    words: Vec<u32>,
    read: usize,
}

thread_local! {
    static QUEUE: Cell<Queue> = const { Cell::new(Queue { words: Vec::new(), read: 0 }) };
}

/// Lends these words to the generators of this thread, in place of whatever was lent before.
pub fn lend(words: &[u32]) {
    let mut queue = QUEUE.take();
    queue.words.clear();
    queue.words.extend_from_slice(words);
    queue.read = 0;
    QUEUE.set(queue);
}

/// Lets the same words be read again from the first one on.
pub fn rewind() {
    let mut queue = QUEUE.take();
    queue.read = 0;
    QUEUE.set(queue);
}

/// How many of the lent words have been read.
pub fn read() -> usize {
    let queue = QUEUE.take();
    let read = queue.read;
    QUEUE.set(queue);
    read
}

/// A generator over the lent words; `rand_chacha` names it.
pub struct LentRng {
    queue: Queue,
}

impl Drop for LentRng {
    fn drop(&mut self) {
        QUEUE.set(std::mem::take(&mut self.queue));
    }
}

/// The way the Rust makes its generator.
pub trait SeedableRng {
    fn from_os_rng() -> Self;
}

impl SeedableRng for LentRng {
    fn from_os_rng() -> Self {
        LentRng { queue: QUEUE.take() }
    }
}

/// The one kind of value that the Rust draws.
pub trait Drawn {
    fn from_word(word: u32) -> Self;
}

impl Drawn for u32 {
    #[inline(always)]
    fn from_word(word: u32) -> u32 {
        word
    }
}

/// The way the Rust draws.
pub trait Rng {
    fn random<T: Drawn>(&mut self) -> T;
}

impl Rng for LentRng {
    #[inline]
    fn random<T: Drawn>(&mut self) -> T {
        match self.queue.words.get(self.queue.read) {
            Some(&word) => {
                self.queue.read += 1;
                T::from_word(word)
            }
            // Not `panic!`: running out is an outcome that a comparison asks for, so no message is printed.
            None => resume_unwind(Box::new(WordsEnd)),
        }
    }
}

pub mod prelude {
    pub use crate::{Rng, SeedableRng};
}
