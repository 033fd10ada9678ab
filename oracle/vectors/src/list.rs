//! The list's two texts. What a line of each looks like is said in crates/cases/README.md.

use std::collections::BTreeMap;

/// A call: its number and a word for a reader, then each argument with its name. The program skips the words, so no
/// name may have a digit in it.
pub struct Call {
    entry: u32,
    text: String,
}

impl Call {
    pub fn new(entry: u32, name: &str) -> Call {
        Call { entry, text: format!("{entry} {name}") }
    }

    pub fn plain(mut self, name: &str, value: impl std::fmt::Display) -> Call {
        self.text += &format!(" {name} {value}");
        self
    }

    pub fn buffer<T: std::fmt::Display>(mut self, name: &str, elements: &[T]) -> Call {
        self.text += &format!(" {name} {}:", elements.len());
        for element in elements {
            self.text += &format!(" {element}");
        }
        self
    }
}

/// An answer: what stands first in the line, then values, then buffers.
pub struct Answer(String);

impl Answer {
    pub fn new(first: impl std::fmt::Display) -> Answer {
        Answer(first.to_string())
    }

    pub fn value(mut self, value: impl std::fmt::Display) -> Answer {
        self.0 += &format!(" {value}");
        self
    }

    /// Of equal elements in a row only one is written, with their number.
    pub fn buffer<T: std::fmt::Display + PartialEq>(mut self, elements: &[T]) -> Answer {
        self.0 += " [";
        for run in elements.chunk_by(|x, y| x == y) {
            self.0 += &format!(" {}", run[0]);
            if run.len() > 1 {
                self.0 += &format!("*{}", run.len());
            }
        }
        self.0 += " ]";
        self
    }

    /// The bytes of a line, as a text where each can stand in one.
    pub fn line(mut self, bytes: &[u8]) -> Answer {
        let stands = |byte: &u8| *byte == b'\n' || (b' '..=b'~').contains(byte) && !b"\"\\".contains(byte);
        if !bytes.iter().all(stands) {
            return self.buffer(bytes);
        }
        let letters: String = bytes.iter().map(|byte| char::from(*byte)).collect();
        self.0 += &format!(" \"{}\"", letters.replace('\n', "\\n"));
        self
    }
}

/// Who answers a call: the Rust where it has an answer to these arguments.
#[derive(Clone, Copy, PartialEq, Eq)]
pub enum By {
    Rust,
    Model,
}

#[derive(Default)]
pub struct List {
    pub calls: String,
    pub answers: String,
    /// For each entry's number, how many lines the Rust answered and how many the model.
    pub counts: BTreeMap<u32, [usize; 2]>,
    pub bad: usize,
}

impl List {
    pub fn add(&mut self, call: Call, answer: Answer, by: By) {
        self.calls += &format!("{}\n", call.text);
        self.answers += &format!("{} -> {}\n", call.text, answer.0);
        let [rust, model] = self.counts.entry(call.entry).or_default();
        match by {
            By::Rust => *rust += 1,
            By::Model => *model += 1,
        }
    }

    /// A line that is no call, which the program has to say.
    pub fn add_bad(&mut self, line: &str) {
        self.calls += &format!("{line}\n");
        self.answers += &format!("{line} -> bad line\n");
        self.bad += 1;
    }

    /// An empty line, which has no answer.
    pub fn add_empty(&mut self) {
        self.calls += "\n";
        self.answers += "\n";
    }

    /// How many lines the Rust answered, and how many the model.
    pub fn sums(&self) -> [usize; 2] {
        self.counts.values().fold([0, 0], |[r, m], [rust, model]| [r + rust, m + model])
    }
}

/// An output that the Rust wrote, over what the buffer held before: the rest of it stays. The model's must be the same.
pub fn agreed<T: Copy + PartialEq + std::fmt::Debug>(rust: &[T], before: &[T], model: &[T]) -> Vec<T> {
    let after = [rust, &before[rust.len()..]].concat();
    assert_eq!(after, model, "the Rust and the model differ");
    after
}
