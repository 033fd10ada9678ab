//! write_query_line and read_response_line. They have only document 01, so there is no Rust to compare with.

use crate::face;
use crate::report::Entry;
use crate::rng::Rng;
use crate::subject::{damaged, every, random, Plan, Subject};

#[derive(Debug)]
pub struct Write {
    ticket: u32,
    words: Vec<u32>,
    out: Vec<u8>,
}

/// A line of this many columns.
fn length(columns: usize) -> usize {
    27 + 8 * columns
}

fn some_ticket(rng: &mut Rng) -> u32 {
    rng.word().max(1)
}

impl Write {
    fn tests(&self) -> model::Tests<'_> {
        model::write_query_line_tests(self.ticket, &self.words, &self.out)
    }
}

impl Subject for Write {
    const NAME: &'static str = "write_query_line";
    const LISTED: &'static [u32] = &[11, 2];

    fn good(rng: &mut Rng) -> Write {
        let columns = rng.size(8, 300);
        let (ticket, spare) = (some_ticket(rng), rng.spare());
        Write { ticket, words: rng.words(columns), out: rng.bytes(length(columns) + spare) }
    }

    fn damage(&mut self, number: u32, rng: &mut Rng) {
        match (number, rng.below(3)) {
            (11, _) => self.ticket = 0,
            (_, 0) => self.words.clear(),
            (_, 1) => {
                let columns = rng.pick(&[4097, 4098]);
                (self.words, self.out) = (rng.words(columns), rng.bytes(length(columns)));
            }
            _ => self.out.truncate(length(self.words.len()) - 1),
        }
    }

    fn run(&self, log: &mut Entry) {
        log.call(&self.tests().holding());
        let (mut ours, mut theirs) = (self.out.clone(), self.out.clone());
        let answer = face::write_query_line(self.ticket, &self.words, &mut ours);
        let expected = model::write_query_line(self.ticket, &self.words, &mut theirs);
        log.same((&answer, &ours), (&expected, &theirs), self);
    }
}

pub fn write(plan: &Plan) -> Entry {
    let (mut log, mut rng) = plan.start::<Write>();
    for byte in 0..=255u32 {
        for shift in [0, 8, 16, 24] {
            let word = byte << shift;
            Write { ticket: word, words: vec![!word, word], out: rng.bytes(length(2)) }.run(&mut log);
        }
    }
    for ticket in [0, 1, 7, u32::MAX] {
        for columns in [0, 1, 2, 4095, 4096, 4097] {
            for room in [0, length(columns) - 1, length(columns), length(columns) + 1] {
                Write { ticket, words: rng.words(columns), out: rng.bytes(room) }.run(&mut log);
            }
        }
    }
    damaged::<Write>(&mut log, &mut rng);
    random::<Write>(&mut log, &mut rng, plan.calls);
    log
}

/// A line that says these numbers and has these words, whether they fit each other or not.
fn frame(kind: u8, ticket: u32, rows: u32, columns: u32, words: &[u32]) -> Vec<u8> {
    let numbers = [ticket, rows, columns];
    let behind = numbers.iter().chain(words).flat_map(|word| word.to_le_bytes());
    let digits: String = [kind].into_iter().chain(behind).map(|byte| format!("{byte:02x}")).collect();
    [digits.as_bytes(), b"\n"].concat()
}

fn good_line(rng: &mut Rng, columns: usize) -> Vec<u8> {
    frame(2, some_ticket(rng), 1, columns as u32, &rng.words(columns))
}

#[derive(Debug)]
pub struct Read {
    line: Vec<u8>,
    out: Vec<u32>,
}

impl Read {
    fn replace(&mut self, at: usize, digits: &[u8]) {
        if let Some(part) = self.line.get_mut(at..at + digits.len()) {
            part.copy_from_slice(digits);
        }
    }

    /// A line that is none, in one of many ways.
    fn damage_line(&mut self, rng: &mut Rng) {
        let at = rng.below(self.line.len().max(1));
        match rng.below(14) {
            0 => self.replace(0, b"01"),
            1 => self.replace(2, b"00000000"),
            2 => self.replace(10, b"02000000"),
            3 => self.replace(18, b"00000000"),
            4 => self.replace(18, b"01100000"),
            5 => self.line.truncate(at),
            6 => self.line.push(b'\n'),
            7 => self.line.insert(at, b'0'),
            8 => self.line.insert(at, b'\n'),
            9 => self.replace(self.line.len().saturating_sub(1), b"0"),
            10 => self.line.make_ascii_uppercase(),
            11 => self.line.splice(self.line.len().saturating_sub(1).., *b"\r\n").for_each(drop),
            12 => self.replace(18, b"05000000"),
            _ => {
                let byte = rng.next() as u8;
                self.replace(at, &[byte]);
            }
        }
    }

    fn tests(&self) -> model::Tests<'_> {
        model::read_response_line_tests(&self.line, &self.out)
    }
}

impl Subject for Read {
    const NAME: &'static str = "read_response_line";
    const LISTED: &'static [u32] = &[11, 2];

    fn good(rng: &mut Rng) -> Read {
        let columns = rng.size(8, 300);
        let spare = rng.spare();
        Read { line: good_line(rng, columns), out: rng.words(columns + spare) }
    }

    fn damage(&mut self, number: u32, rng: &mut Rng) {
        match number {
            11 => self.damage_line(rng),
            _ => {
                let columns = self.line.len().saturating_sub(27) / 8;
                self.out.truncate(rng.pick(&[0, columns.saturating_sub(1)]));
            }
        }
    }

    fn run(&self, log: &mut Entry) {
        log.call(&self.tests().holding());
        let (mut ours, mut theirs) = (self.out.clone(), self.out.clone());
        let answer = face::read_response_line(&self.line, &mut ours);
        let expected = model::read_response_line(&self.line, &mut theirs);
        log.same((&answer, &ours), (&expected, &theirs), self);
    }
}

pub fn read(plan: &Plan) -> Entry {
    let (mut log, mut rng) = plan.start::<Read>();
    let example = b"020700000001000000020000000100000000000080\n";
    for line in [example.to_vec(), good_line(&mut rng, 1), good_line(&mut rng, 3)] {
        each_damage(&mut log, &mut rng, &line);
    }
    headers(&mut log, &mut rng);
    for columns in [1, 2, 4095, 4096, 4097] {
        for room in [0, columns - 1, columns, columns + 1] {
            Read { line: good_line(&mut rng, columns), out: rng.words(room) }.run(&mut log);
        }
    }
    damaged::<Read>(&mut log, &mut rng);
    random::<Read>(&mut log, &mut rng, plan.calls);
    log
}

/// Each byte value in each place, each start, each tail, one byte put in and one taken out anywhere.
fn each_damage(log: &mut Entry, rng: &mut Rng, line: &[u8]) {
    let mut run = |line: &[u8]| Read { line: line.to_vec(), out: rng.words(4) }.run(log);
    for at in 0..line.len() {
        for byte in 0..=255 {
            let mut damaged = line.to_vec();
            damaged[at] = byte;
            run(&damaged);
        }
        run(&line[..at]);
        run(&line[at..]);
        run(&[&line[..at], &line[at + 1..]].concat());
        for byte in *b"0f\nA" {
            run(&[&line[..at], &[byte], &line[at..]].concat());
        }
    }
    run(line);
    for tail in [&b"\n"[..], b"\r", b"0", b"00", b"00000000", b"00000000\n"] {
        run(&[line, tail].concat());
    }
    run(&line.to_ascii_uppercase());
    run(&[line, line].concat());
}

/// Every kind; ticket, rows and columns at their ends, beside words that fit and words that don't.
fn headers(log: &mut Entry, rng: &mut Rng) {
    for kind in 0..=255 {
        Read { line: frame(kind, 7, 1, 2, &[1, 2]), out: rng.words(2) }.run(log);
    }
    let ends = [0, 1, 2, 3, 256, 4096, 4097, 65_537, 1 << 24, 1 << 29, 1 << 30, 1 << 31, u32::MAX];
    every(&ends, 2, |list| {
        for words in [0, 1, 2, 3] {
            for ticket in [0, 1, u32::MAX] {
                let line = frame(2, ticket, list[0], list[1], &rng.words(words));
                Read { line, out: rng.words(3) }.run(log);
            }
        }
    });
    for columns in [4096, 4097] {
        for kind in [1, 2] {
            let line = frame(kind, 9, 1, columns, &rng.words(columns as usize));
            Read { line, out: rng.words(columns as usize) }.run(log);
        }
    }
}
