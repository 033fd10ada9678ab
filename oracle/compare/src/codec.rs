//! encode_kv_as_row and decode_kv_from_row. They have only document 01, so there is no Rust to compare with.

use crate::face;
use crate::report::Entry;
use crate::rng::Rng;
use crate::subject::{damaged, random, Plan, Subject};

/// The least C that b allows.
pub fn least_columns(b: u32) -> usize {
    264usize.div_ceil(b as usize)
}

/// C for a good b: at the least, near it, and now and then at the largest.
pub fn some_columns(rng: &mut Rng, b: u32) -> usize {
    let least = least_columns(b);
    match rng.below(60) {
        0 => rng.between(least, 512),
        1 => 512,
        2..=20 => least,
        _ => rng.between(least, least + 12),
    }
}

/// C that a table or the codec refuses at this b.
pub fn bad_columns(rng: &mut Rng, b: u32) -> usize {
    let short = if (1..=264).contains(&b) { least_columns(b) - 1 } else { 0 };
    if rng.once_in(2) {
        short
    } else {
        rng.bad_dimension(512)
    }
}

/// The longest value, for a good b and C.
pub fn room(b: u32, columns: usize) -> usize {
    usize::try_from(model::value_room(b, columns)).unwrap_or(0)
}

fn some_value(rng: &mut Rng, room: usize) -> Vec<u8> {
    let length = match rng.below(4) {
        0 => room,
        1 => 0,
        _ => rng.below(room + 1),
    };
    let mut value = rng.bytes(length);
    // A value may well end in zeros or in bytes like the marker.
    if let (Some(last), true) = (value.last_mut(), rng.once_in(3)) {
        *last = rng.pick(&[0, 0x81, 0x80, 1]);
    }
    value
}

/// A row of a random digest and value, as the model writes it.
pub fn some_row(rng: &mut Rng, b: u32, columns: usize, digest: &[u8; 32]) -> Vec<u32> {
    let value = some_value(rng, room(b, columns));
    let mut row = vec![0; columns];
    assert_eq!(model::encode_kv_as_row(b, columns, digest, &value, &mut row), 0);
    row
}

/// A row with this digest and no marker where one must be: no nonzero byte behind the digest, or another one last.
pub fn unmarked_row(rng: &mut Rng, b: u32, columns: usize, digest: &[u8; 32]) -> Vec<u32> {
    let mut bytes = digest.to_vec();
    let behind = room(b, columns) + 1;
    match rng.below(4) {
        0 => {}
        1 => bytes[31] = 0x81,
        _ => {
            let length = rng.between(1, behind);
            bytes.extend(rng.bytes(length));
            bytes[31 + length] = rng.pick(&[1, 0x80, 0x82, 0x83, 0x01, 0xff]);
        }
    }
    model::row_of(b, columns, &bytes)
}

#[derive(Debug)]
pub struct Encode {
    b: u32,
    columns: usize,
    digest: [u8; 32],
    value: Vec<u8>,
    out: Vec<u32>,
}

impl Encode {
    fn tests(&self) -> model::Tests<'_> {
        model::encode_kv_as_row_tests(self.b, self.columns, &self.value, &self.out)
    }
}

impl Subject for Encode {
    const NAME: &'static str = "encode_kv_as_row";
    const LISTED: &'static [u32] = &[1, 2, 16];

    fn good(rng: &mut Rng) -> Encode {
        let b = rng.width();
        let columns = some_columns(rng, b);
        let (value, spare) = (some_value(rng, room(b, columns)), rng.spare());
        Encode { b, columns, digest: rng.digest(), value, out: rng.words(columns + spare) }
    }

    fn damage(&mut self, number: u32, rng: &mut Rng) {
        match number {
            1 => self.b = rng.bad_width(),
            2 if rng.once_in(2) => self.columns = bad_columns(rng, self.b),
            2 => self.out.truncate(self.columns.min(512).saturating_sub(1)),
            _ => {
                let longer = room(self.b, self.columns).min(2000) + rng.pick(&[1, 2, 40]);
                self.value = rng.bytes(longer);
            }
        }
    }

    fn run(&self, log: &mut Entry) {
        log.call(&self.tests().holding());
        let (mut ours, mut theirs) = (self.out.clone(), self.out.clone());
        let answer = face::encode_kv_as_row(self.b, self.columns, &self.digest, &self.value, &mut ours);
        let expected = model::encode_kv_as_row(self.b, self.columns, &self.digest, &self.value, &mut theirs);
        log.same((answer, &ours), (expected, &theirs), self);
    }
}

pub fn encode(plan: &Plan) -> Entry {
    let (mut log, mut rng) = plan.start::<Encode>();
    for b in 4..=14 {
        // Each value of one byte, at the least C that has room for it.
        let columns = (41 * 8usize).div_ceil(b as usize);
        for byte in 0..=255 {
            Encode { b, columns, digest: rng.digest(), value: vec![byte], out: rng.words(columns) }.run(&mut log);
        }
    }
    for b in [0, 3, 4, 8, 9, 10, 11, 14, 15, u32::MAX] {
        let least = if b == 0 { 1 } else { 264usize.div_ceil(b as usize) };
        for columns in [0, 1, least - 1, least, least + 1, 511, 512, 513, usize::MAX] {
            let room = room(b, columns).min(2000);
            for length in [0, 1, room.saturating_sub(1), room, room + 1] {
                for out in [columns.saturating_sub(1), columns, columns.saturating_add(2)] {
                    let (value, out) = (rng.bytes(length), rng.words(out.min(520)));
                    Encode { b, columns, digest: rng.digest(), value, out }.run(&mut log);
                }
            }
        }
    }
    damaged::<Encode>(&mut log, &mut rng);
    random::<Encode>(&mut log, &mut rng, plan.calls);
    log
}

#[derive(Debug)]
pub struct Decode {
    b: u32,
    columns: usize,
    row: Vec<u32>,
    digest: Vec<u8>,
    value: Vec<u8>,
}

impl Decode {
    fn of(rng: &mut Rng, b: u32, row: Vec<u32>, spare: usize) -> Decode {
        let columns = row.len();
        let (digest, value) = (rng.bytes(32 + spare), rng.bytes(room(b, columns) + spare));
        Decode { b, columns, row, digest, value }
    }

    fn damage_shape(&mut self, rng: &mut Rng) {
        match rng.below(5) {
            0 => self.columns = bad_columns(rng, self.b),
            1 => self.columns = self.columns.saturating_add(1),
            2 => rng.other_length(&mut self.row),
            3 => self.digest.truncate(rng.pick(&[0, 31])),
            _ => self.value.truncate(room(self.b, self.columns).min(1000).saturating_sub(1)),
        }
    }

    /// A row in order but for b: the same bytes at a width that 01 refuses.
    fn at_bad_width(&mut self, rng: &mut Rng) {
        let b = rng.pick(&[3, 15, 16, 31, 32]);
        let columns = rng.between(least_columns(b), least_columns(b) + 9);
        let mut bytes = rng.bytes(32 + room(b, columns));
        bytes.push(0x81);
        *self = Decode::of(rng, b, model::row_of(b, columns, &bytes), 0);
    }

    /// Sets an element to 2^b or more; its low b bits stay, so that the bytes do too.
    fn damage_element(&mut self, rng: &mut Rng) {
        if self.row.is_empty() || self.b > 31 {
            return;
        }
        let within = rng.below(self.row.len());
        let at = rng.pick(&[0, self.row.len() - 1, within]);
        self.row[at] |= 1 << rng.between(self.b as usize, 31);
    }

    fn damage_marker(&mut self, rng: &mut Rng) {
        let columns = self.row.len();
        if !(1..=32).contains(&self.b) || columns * (self.b as usize) < 264 {
            // A b without whole bytes: no marker can be there at all.
            self.row.fill(0);
            return;
        }
        let high: Vec<u32> = self.row.iter().map(|&element| element >> self.b.min(31) << self.b.min(31)).collect();
        let digest = rng.digest();
        self.row = unmarked_row(rng, self.b, columns, &digest);
        if self.b < 32 {
            self.row.iter_mut().zip(high).for_each(|(element, high)| *element |= high);
        }
    }

    fn tests(&self) -> model::Tests<'_> {
        model::decode_kv_from_row_tests(self.b, self.columns, &self.row, &self.digest, &self.value)
    }
}

impl Subject for Decode {
    const NAME: &'static str = "decode_kv_from_row";
    const LISTED: &'static [u32] = &[1, 2, 17, 13];

    fn good(rng: &mut Rng) -> Decode {
        let b = rng.width();
        let (columns, digest, spare) = (some_columns(rng, b), rng.digest(), rng.spare());
        let row = some_row(rng, b, columns, &digest);
        Decode::of(rng, b, row, spare)
    }

    fn damage(&mut self, number: u32, rng: &mut Rng) {
        match number {
            1 if rng.once_in(3) => self.at_bad_width(rng),
            1 => self.b = rng.bad_width(),
            2 => self.damage_shape(rng),
            17 => self.damage_element(rng),
            _ => self.damage_marker(rng),
        }
    }

    fn run(&self, log: &mut Entry) {
        log.call(&self.tests().holding());
        let Decode { b, columns, row, digest, value } = self;
        let (mut digest_a, mut digest_b) = (digest.clone(), digest.clone());
        let (mut value_a, mut value_b) = (value.clone(), value.clone());
        let answer = face::decode_kv_from_row(*b, *columns, row, &mut digest_a, &mut value_a);
        let expected = model::decode_kv_from_row(*b, *columns, row, &mut digest_b, &mut value_b);
        log.same((&answer, digest_a, value_a), (&expected, digest_b, value_b), self);
    }
}

pub fn decode(plan: &Plan) -> Entry {
    let (mut log, mut rng) = plan.start::<Decode>();
    flips(&mut log, &mut rng);
    ends(&mut log, &mut rng);
    damaged::<Decode>(&mut log, &mut rng);
    random::<Decode>(&mut log, &mut rng, plan.calls);
    log
}

/// Short rows with each bit of each element turned, those above b and those past the last whole byte among them.
fn flips(log: &mut Entry, rng: &mut Rng) {
    for b in 4..=14 {
        for columns in [least_columns(b), least_columns(b) + 3] {
            let digest = rng.digest();
            let row = some_row(rng, b, columns, &digest);
            for bit in 0..columns * 32 {
                let mut row = row.clone();
                row[bit / 32] ^= 1 << (bit % 32);
                Decode::of(rng, b, row, 0).run(log);
            }
        }
    }
}

/// Each byte value as the last nonzero one, at each of the places around the digest's end and at the row's.
fn ends(log: &mut Entry, rng: &mut Rng) {
    for b in 4..=14 {
        let columns = least_columns(b) + 4;
        let whole = columns * b as usize / 8;
        for at in [0, 30, 31, 32, 33, whole - 1] {
            for last in 0..=255 {
                let mut bytes = rng.bytes(at);
                bytes.push(last);
                Decode::of(rng, b, model::row_of(b, columns, &bytes), 1).run(log);
            }
        }
    }
    for b in [0, 3, 4, 8, 9, 10, 11, 14, 15, 31, 32, u32::MAX] {
        for columns in [0, 1, 18, 19, 66, 88, 511, 512, 513, usize::MAX] {
            let (row, digest, value) = (vec![0; columns.min(513)], rng.bytes(32), rng.bytes(900));
            Decode { b, columns, row, digest, value }.run(log);
        }
    }
}
