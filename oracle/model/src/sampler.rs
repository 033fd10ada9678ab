//! 01, "Ternary sampler".

use crate::refusal::{bad_interval, Tests};

/// What the sampler answers: the refusal number and the count of words read.
#[derive(Clone, Debug, PartialEq, Eq)]
pub struct Sampled {
    pub number: u32,
    pub read: usize,
}

/// "A word up to I gives 0; I+1 to 2I gives 1; 2I+1 to 3I gives 2^32-1; more is skipped."
pub fn ternary(interval: u32, word: u32) -> Option<u32> {
    let (i, word) = (u64::from(interval), u64::from(word));
    if word <= i {
        Some(0)
    } else if word <= 2 * i {
        Some(1)
    } else if word <= 3 * i {
        Some(u32::MAX)
    } else {
        None
    }
}

/// The first `wanted` values and "the length of the shortest start of the words holding enough accepted ones"; nothing
/// if "the random words end before enough are accepted".
pub(crate) fn sampled(interval: u32, words: &[u32], wanted: usize) -> Option<(Vec<u32>, usize)> {
    let mut values = Vec::new();
    let mut read = 0;
    while values.len() < wanted {
        values.extend(ternary(interval, *words.get(read)?));
        read += 1;
    }
    Some((values, read))
}

/// "Sampler: 2, 4, 3." "A sampler's wanted length is its output's length, 0 to 4,096."
pub fn sample_from_uniform_ternary_dist_tests<'a>(interval: u32, words: &'a [u32], out: &'a [u32]) -> Tests<'a> {
    Tests::none()
        .then(2, move || out.len() > 4096)
        .then(4, move || bad_interval(interval))
        .then(3, move || sampled(interval, words, out.len()).is_none())
}

/// "It fills the lent output from the lent words and answers the number read".
pub fn sample_from_uniform_ternary_dist(interval: u32, words: &[u32], out: &mut [u32]) -> Sampled {
    let number = sample_from_uniform_ternary_dist_tests(interval, words, out).first();
    if number != 0 {
        return Sampled { number, read: 0 };
    }
    let (values, read) = sampled(interval, words, out.len()).expect("3 does not hold");
    out.copy_from_slice(&values);
    Sampled { number, read }
}

/// "A sister call does the same work and returns the unread tail"; "on a refusal the tail is the whole of the words".
pub fn sample_and_return_unread<'w>(interval: u32, words: &'w [u32], out: &mut [u32]) -> &'w [u32] {
    let done = sample_from_uniform_ternary_dist(interval, words, out);
    &words[done.read..]
}
