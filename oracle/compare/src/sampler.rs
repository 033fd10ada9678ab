//! sample_from_uniform_ternary_dist and its sister, which returns the unread tail.

use crate::face;
use crate::report::Entry;
use crate::rng::Rng;
use crate::subject::{damaged, every, random, Plan, Subject};

/// One call; SISTER says which of the two entries it is. The sister gives no number: its log counts the conditions that
/// hold, for each of which the tail must be the whole of the words and the output unchanged.
#[derive(Debug)]
pub struct Sample<const SISTER: bool> {
    interval: u32,
    words: Vec<u32>,
    out: Vec<u32>,
}

impl<const SISTER: bool> Sample<SISTER> {
    /// Enough words for `wanted`, and `more` behind them.
    fn of(rng: &mut Rng, interval: u32, wanted: usize, more: usize) -> Self {
        let mut words = enough_words(rng, interval, wanted);
        words.extend((0..more).map(|_| rng.draw(interval)));
        Sample { interval, words, out: rng.words(wanted) }
    }

    /// Ends the words before the last that is wanted; an output that wants none can't be cut short.
    fn end_words(&mut self, rng: &mut Rng) {
        if self.out.is_empty() {
            self.out = rng.words(1);
        }
        cut_short(self.interval, &mut self.words, self.out.len());
        if rng.once_in(4) {
            self.words.clear();
        }
    }
}

/// Random words of which `wanted` are accepted, the last of them too.
pub fn enough_words(rng: &mut Rng, interval: u32, wanted: usize) -> Vec<u32> {
    let (mut words, mut accepted) = (Vec::new(), 0);
    while accepted < wanted {
        let word = rng.draw(interval);
        accepted += usize::from(model::ternary(interval, word).is_some());
        words.push(word);
    }
    words
}

/// Ends the words right before the accepted one that would make `wanted`.
pub fn cut_short(interval: u32, words: &mut Vec<u32>, wanted: usize) {
    let accepted = (0..words.len()).filter(|&at| model::ternary(interval, words[at]).is_some());
    let last = accepted.take(wanted).enumerate().find(|(count, _)| count + 1 == wanted);
    if let Some((_, at)) = last {
        words.truncate(at);
    }
}

impl<const SISTER: bool> Sample<SISTER> {
    fn tests(&self) -> model::Tests<'_> {
        model::sample_from_uniform_ternary_dist_tests(self.interval, &self.words, &self.out)
    }
}

impl<const SISTER: bool> Subject for Sample<SISTER> {
    const NAME: &'static str = if SISTER { "sample_and_return_unread" } else { "sample_from_uniform_ternary_dist" };
    const NOTE: &'static str =
        if SISTER { ", which gives no number: counted are the conditions that hold" } else { "" };
    const LISTED: &'static [u32] = &[2, 4, 3];

    fn good(rng: &mut Rng) -> Self {
        let wanted = if rng.once_in(40) { rng.below(300) } else { rng.below(12) };
        let (interval, more) = (rng.interval(), rng.spare());
        Self::of(rng, interval, wanted, more)
    }

    fn damage(&mut self, number: u32, rng: &mut Rng) {
        match number {
            2 => {
                let length = rng.pick(&[4097, 4098, 5000]);
                *self = Self::of(rng, self.interval, length, 0);
            }
            4 => self.interval = rng.bad_interval(),
            _ => self.end_words(rng),
        }
    }

    fn run(&self, log: &mut Entry) {
        let holding = self.tests().holding();
        log.call(&holding);
        let Sample { interval, words, out } = self;
        let (mut ours, mut theirs) = (out.clone(), out.clone());
        let read = if SISTER {
            let tail = face::sample_and_return_unread(*interval, words, &mut ours);
            let expected = model::sample_and_return_unread(*interval, words, &mut theirs);
            log.same((tail, &ours), (expected, &theirs), self);
            words.len() - tail.len()
        } else {
            let answer = face::sample_from_uniform_ternary_dist(*interval, words, &mut ours);
            let expected = model::sample_from_uniform_ternary_dist(*interval, words, &mut theirs);
            log.same((&answer, &ours), (&expected, &theirs), self);
            answer.read
        };
        // The Rust has no sample of nothing.
        if holding.is_empty() && !out.is_empty() {
            let rust = reference::sample_from_uniform_ternary_dist(*interval, words, out.len());
            log.rust(Some((ours, read)), rust, self);
        }
    }
}

pub fn run<const SISTER: bool>(plan: &Plan) -> Entry {
    let (mut log, mut rng) = plan.start::<Sample<SISTER>>();
    exhaustive::<SISTER>(&mut log, &mut rng);
    limits::<SISTER>(&mut log, &mut rng);
    damaged::<Sample<SISTER>>(&mut log, &mut rng);
    random::<Sample<SISTER>>(&mut log, &mut rng, plan.calls);
    log
}

/// Every list of up to four words around the edges of a small I, every wanted length up to one more than that.
fn exhaustive<const SISTER: bool>(log: &mut Entry, rng: &mut Rng) {
    for interval in [0, 1, 2] {
        let alphabet: Vec<u32> = (0..=3 * interval + 1).collect();
        for length in 0..=4 {
            every(&alphabet, length, |words| {
                for wanted in 0..=length + 1 {
                    let case = Sample::<SISTER> { interval, words: words.to_vec(), out: rng.words(wanted) };
                    case.run(log);
                }
            });
        }
    }
}

fn limits<const SISTER: bool>(log: &mut Entry, rng: &mut Rng) {
    for interval in [1, 2, 5, 1_431_655_764, 1_431_655_765] {
        for wanted in [0, 1, 2, 4095, 4096, 4097] {
            for more in [0, 1, 7] {
                Sample::<SISTER>::of(rng, interval, wanted, more).run(log);
            }
        }
    }
    for interval in [0, 1, 1_431_655_765, 1_431_655_766, 1 << 31, u32::MAX] {
        let i = u64::from(interval);
        let edges = [0, 1, i, i + 1, 2 * i, 2 * i + 1, 3 * i, 3 * i + 1, u64::from(u32::MAX)];
        for edge in edges.into_iter().filter_map(|edge| u32::try_from(edge).ok()) {
            for word in [edge.wrapping_sub(1), edge, edge.wrapping_add(1)] {
                Sample::<SISTER> { interval, words: vec![word], out: rng.words(1) }.run(log);
            }
        }
    }
}
