//! What was run and what came of it, for one entry.

use std::fmt::{Debug, Write};

use crate::subject::Subject;

/// Differences that are printed for an entry, and the longest that one of them may be.
const SHOWN: usize = 5;
const LONGEST: usize = 20_000;

pub struct Entry {
    pub calls: u64,
    name: &'static str,
    note: &'static str,
    pub seed: u64,
    listed: &'static [u32],
    never: &'static [(u32, u32, &'static str)],
    successes: u64,
    refused: [u64; 19],
    alone: [u64; 19],
    pairs: [[u64; 19]; 19],
    rust: u64,
    refused_alike: u64,
    pub different: u64,
    shown: Vec<String>,
}

impl Entry {
    pub fn new<S: Subject>(seed: u64) -> Entry {
        Entry {
            calls: 0,
            name: S::NAME,
            note: S::NOTE,
            seed,
            listed: S::LISTED,
            never: S::NEVER,
            successes: 0,
            refused: [0; 19],
            alone: [0; 19],
            pairs: [[0; 19]; 19],
            rust: 0,
            refused_alike: 0,
            different: 0,
            shown: Vec::new(),
        }
    }

    /// Counts a call by the refusals whose conditions hold for its input, in 01's order: the first is the answer.
    pub fn call(&mut self, holding: &[u32]) {
        self.calls += 1;
        match holding {
            [] => self.successes += 1,
            [only] => self.alone[*only as usize] += 1,
            [..] => {}
        }
        if let [first, later @ ..] = holding {
            self.refused[*first as usize] += 1;
            for number in later {
                self.pairs[*first as usize][*number as usize] += 1;
            }
        }
    }

    /// Holds what the library gave against the model.
    pub fn same<T: PartialEq + Debug>(&mut self, library: T, model: T, input: &dyn Debug) {
        self.hold("model", &library, &model, input);
    }

    /// Holds what the library gave against the Rust.
    pub fn rust<T: PartialEq + Debug>(&mut self, library: T, rust: T, input: &dyn Debug) {
        self.rust += 1;
        self.hold("Rust", &library, &rust, input);
    }

    /// Holds a refusal that the Rust gives too. 01's domain for equality has no refusals, so it is counted apart.
    pub fn refused_alike<T: PartialEq + Debug>(&mut self, library: T, rust: T, input: &dyn Debug) {
        self.refused_alike += 1;
        self.hold("Rust", &library, &rust, input);
    }

    /// Holds what came against what an honest run owes.
    pub fn owed<T: PartialEq + Debug>(&mut self, came: T, owed: T, input: &dyn Debug) {
        self.hold("owed", &came, &owed, input);
    }

    fn hold<T: PartialEq + Debug>(&mut self, other: &str, library: &T, theirs: &T, input: &dyn Debug) {
        if library == theirs {
            return;
        }
        self.different += 1;
        if self.shown.len() < SHOWN {
            let mut text = Short(format!("{} differs from the {other}\n  input ", self.name), LONGEST);
            // An error of the writer only says that the text was cut.
            let _ = write!(text, "{input:?}");
            text.1 += LONGEST;
            let _ = write!(text, "\n  library {library:?}");
            text.1 += LONGEST;
            let _ = write!(text, "\n  {other} {theirs:?}");
            self.shown.push(text.0);
        }
    }

    pub fn seen_alone(&self, number: u32) -> bool {
        self.alone[number as usize] > 0
    }

    pub fn seen_pair(&self, first: u32, later: u32) -> bool {
        self.pairs[first as usize][later as usize] > 0
    }

    /// Whether a pair can't come up, or, with both numbers the same, a number can't.
    pub fn is_never(&self, first: u32, later: u32) -> bool {
        self.never.iter().any(|&(x, y, _)| (x, y) == (first, later))
    }

    /// What should have come up and did not, or should not have and did.
    fn gaps(&self) -> Vec<String> {
        let mut gaps = Vec::new();
        for (at, &x) in self.listed.iter().enumerate() {
            if self.seen_alone(x) == self.is_never(x, x) {
                gaps.push(format!("{x} alone"));
            }
            for &y in &self.listed[at + 1..] {
                if self.seen_pair(x, y) == self.is_never(x, y) {
                    gaps.push(format!("{x} with {y}"));
                }
            }
        }
        gaps
    }

    /// The numbers that 01 doesn't list for the entry must not be its answer.
    fn unlisted(&self) -> impl Iterator<Item = usize> + '_ {
        (1..19).filter(|&number| self.refused[number] > 0 && !self.listed.contains(&(number as u32)))
    }

    /// What can't come up, a line for each reason.
    fn print_never(&self) {
        let mut reasons: Vec<&str> = self.never.iter().map(|&(_, _, why)| why).collect();
        reasons.dedup();
        for reason in reasons {
            let pairs = self.never.iter().filter(|&&(_, _, why)| why == reason);
            let which = pairs.map(|&(x, y, _)| if x == y { format!("{x}") } else { format!("{x} with {y}") });
            println!("  never {}: {reason}", which.collect::<Vec<_>>().join(", "));
        }
    }

    /// Prints the entry; the answer is whether something is missing.
    pub fn print(&self) -> bool {
        let refused: Vec<String> = self.listed.iter().map(|&x| format!("{x}: {}", self.refused[x as usize])).collect();
        let refused = if refused.is_empty() { "none listed".to_string() } else { refused.join(", ") };
        println!("{}{} (seed {})", self.name, self.note, self.seed);
        println!("  calls {}, successes {}, refusals {refused}", self.calls, self.successes);
        println!("  compared with the Rust {}, different {}", self.rust, self.different);
        if self.refused_alike > 0 {
            println!("  refused by the Rust too, compared though outside the domain {}", self.refused_alike);
        }
        self.print_never();
        let mut gaps = self.gaps();
        gaps.extend(self.unlisted().map(|number| format!("{number}, which isn't listed")));
        if !gaps.is_empty() {
            println!("  NOT AS LISTED: {}", gaps.join("; "));
        }
        for text in &self.shown {
            println!("{text}");
        }
        !gaps.is_empty()
    }
}

/// A text that stops growing at a length, since an input may be of millions of words.
struct Short(String, usize);

impl Write for Short {
    fn write_str(&mut self, text: &str) -> std::fmt::Result {
        if self.0.len() + text.len() > self.1 {
            self.0.push_str(" ..");
            return Err(std::fmt::Error);
        }
        self.0.push_str(text);
        Ok(())
    }
}
