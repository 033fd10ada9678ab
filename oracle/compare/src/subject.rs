//! What every entry's cases have in common: a good one, damages by number, and a call on all sides.

use std::fmt::Debug;

use crate::report::Entry;
use crate::rng::Rng;

/// How often an alone number and a pair are tried at least, and at most until they come up.
const REPEATS: usize = 20;
const TRIES: usize = 5000;

pub trait Subject: Debug + Sized {
    const NAME: &'static str;
    /// Printed behind the name.
    const NOTE: &'static str = "";
    /// The numbers that 01 gives for the entry, in its order.
    const LISTED: &'static [u32];
    /// Pairs that can't be met at once, each with the reason; a number twice is one that can't come up at all.
    const NEVER: &'static [(u32, u32, &'static str)] = &[];

    /// A random input that is not refused.
    fn good(rng: &mut Rng) -> Self;

    /// Makes the condition of a number hold, in one of its ways; it may fail where another damage stands in the way.
    fn damage(&mut self, number: u32, rng: &mut Rng);

    /// Calls the library, the model and, inside the domain, the Rust.
    fn run(&self, log: &mut Entry);
}

/// What a run is asked for.
pub struct Plan {
    pub calls: u64,
    pub seed: u64,
}

impl Plan {
    /// An entry's log and generator. The seed depends on the name, so that an entry run alone gets the same inputs.
    pub fn start<S: Subject>(&self) -> (Entry, Rng) {
        let seed = S::NAME.bytes().fold(self.seed, |seed, byte| Rng::new(seed ^ u64::from(byte)).next());
        (Entry::new::<S>(seed), Rng::new(seed))
    }
}

/// Each number alone and each pair, in either order of damaging.
pub fn damaged<S: Subject>(log: &mut Entry, rng: &mut Rng) {
    for (at, &x) in S::LISTED.iter().enumerate() {
        repeat(log, |log| log.is_never(x, x) || log.seen_alone(x), |log| damage_once::<S>(log, rng, &[x]));
        for &y in &S::LISTED[at + 1..] {
            let seen = |log: &Entry| log.is_never(x, y) || log.seen_pair(x, y);
            repeat(log, seen, |log| {
                let both = if rng.once_in(2) { [x, y] } else { [y, x] };
                damage_once::<S>(log, rng, &both);
            });
        }
    }
}

fn repeat(log: &mut Entry, done: impl Fn(&Entry) -> bool, mut once: impl FnMut(&mut Entry)) {
    for time in 0..TRIES {
        if time >= REPEATS && done(log) {
            return;
        }
        once(log);
    }
}

fn damage_once<S: Subject>(log: &mut Entry, rng: &mut Rng, numbers: &[u32]) {
    let mut case = S::good(rng);
    for &number in numbers {
        case.damage(number, rng);
    }
    case.run(log);
}

/// So many random cases: half of them good, the others with up to three damages.
pub fn random<S: Subject>(log: &mut Entry, rng: &mut Rng, calls: u64) {
    for _ in 0..calls {
        let damages = rng.pick(&[0, 0, 0, 0, 1, 1, 2, 3]);
        let numbers: Vec<u32> = match S::LISTED {
            [] => Vec::new(),
            listed => (0..damages).map(|_| rng.pick(listed)).collect(),
        };
        damage_once::<S>(log, rng, &numbers);
    }
}

/// Every list of `length` values from `alphabet`, one after the other.
pub fn every<T: Copy>(alphabet: &[T], length: usize, mut each: impl FnMut(&[T])) {
    for index in 0..alphabet.len().pow(length as u32) {
        let mut rest = index;
        let list: Vec<T> = (0..length)
            .map(|_| {
                let value = alphabet[rest % alphabet.len()];
                rest /= alphabet.len();
                value
            })
            .collect();
        each(&list);
    }
}
