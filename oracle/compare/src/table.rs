//! fresh and is_malformed, and tables for the other entries.

use model::{Table, SLOTS};

use crate::codec::{bad_columns, least_columns, some_columns};
use crate::face;
use crate::report::Entry;
use crate::rng::Rng;
use crate::subject::{damaged, random, Plan, Subject};

/// A table in order, with this many pending tickets in random slots.
pub fn some_table(rng: &mut Rng, b: u32, columns: usize, pending: usize) -> Table {
    let mut table = model::fresh(b, columns).table;
    let mut number = if rng.once_in(3) { rng.between(1, (1 << 32) - 1000) as u32 } else { 1 };
    while table.used().len() < pending {
        let slot = rng.below(SLOTS);
        if table.numbers[slot] == 0 {
            take(rng, &mut table, slot, number);
            number += rng.between(1, 3) as u32;
        }
    }
    table.next = number + rng.below(3) as u32;
    table
}

/// Gives a slot a number and a digest of its own; now and then one that is almost another's.
fn take(rng: &mut Rng, table: &mut Table, slot: usize, number: u32) {
    let mut digest = rng.digest();
    if let (Some(&other), true) = (table.used().first(), rng.once_in(8)) {
        digest.copy_from_slice(table.digest(other));
        digest[rng.below(32)] ^= 1 << rng.below(8);
    }
    table.numbers[slot] = number;
    table.set_digest(slot, &digest);
    // The changed digest may be a third slot's; then a fresh one.
    if table.used().iter().any(|&other| other != slot && table.digest(other) == digest) {
        table.set_digest(slot, &rng.digest());
    }
}

/// Takes every free slot. A table without room for the numbers below its next gets a higher next.
pub fn fill(rng: &mut Rng, table: &mut Table) {
    while let Some(slot) = table.free() {
        let highest = table.numbers.iter().copied().max().unwrap_or(0);
        let number = highest.saturating_add(1).min(u32::MAX - 1);
        take(rng, table, slot, number);
        table.next = table.next.max(number.saturating_add(1));
    }
}

/// Two different slots in use, taking free ones where there are none.
fn two_used(rng: &mut Rng, table: &mut Table) -> (usize, usize) {
    while table.used().len() < 2 {
        let slot = table.free().expect("most slots are free");
        let number = table.next.clamp(1, u32::MAX - 1);
        take(rng, table, slot, number);
        table.next = number + 1;
    }
    let used = table.used();
    let first = rng.below(used.len());
    let second = (first + rng.between(1, used.len() - 1)) % used.len();
    (used[first], used[second])
}

pub const WAYS: usize = 7;

/// Makes a table malformed in one of 18's ways.
pub fn spoil(rng: &mut Rng, table: &mut Table, way: usize) {
    match way {
        0 => table.b = rng.bad_width(),
        1 => table.columns = bad_columns(rng, table.b),
        2 => table.next = 0,
        3 => {
            let (slot, _) = two_used(rng, table);
            table.numbers[slot] = rng.pick(&[table.next, table.next.saturating_add(1), u32::MAX]);
        }
        4 => {
            let (first, second) = two_used(rng, table);
            table.numbers[first] = table.numbers[second];
        }
        5 => {
            let (first, second) = two_used(rng, table);
            let digest: [u8; 32] = table.digest(second).try_into().expect("32 bytes");
            table.set_digest(first, &digest);
        }
        _ => {
            if let Some(slot) = table.free() {
                table.digests[32 * slot + rng.below(32)] = rng.between(1, 255) as u8;
            }
        }
    }
}

#[derive(Debug)]
pub struct Fresh {
    b: u32,
    columns: usize,
}

impl Fresh {
    fn tests(&self) -> model::Tests<'_> {
        model::fresh_tests(self.b, self.columns)
    }
}

impl Subject for Fresh {
    const NAME: &'static str = "fresh";
    const LISTED: &'static [u32] = &[1, 2];

    fn good(rng: &mut Rng) -> Fresh {
        let b = rng.width();
        let columns = rng.between(least_columns(b), 512);
        Fresh { b, columns }
    }

    fn damage(&mut self, number: u32, rng: &mut Rng) {
        match number {
            1 => self.b = rng.bad_width(),
            _ => self.columns = bad_columns(rng, self.b),
        }
    }

    fn run(&self, log: &mut Entry) {
        log.call(&self.tests().holding());
        log.same(face::fresh(self.b, self.columns), model::fresh(self.b, self.columns), self);
    }
}

pub fn fresh(plan: &Plan) -> Entry {
    let (mut log, mut rng) = plan.start::<Fresh>();
    for b in (0..=17).chain([32, 64, 255, u32::MAX]) {
        for columns in (0..=515).chain([1 << 16, 1 << 32, usize::MAX]) {
            Fresh { b, columns }.run(&mut log);
        }
    }
    damaged::<Fresh>(&mut log, &mut rng);
    random::<Fresh>(&mut log, &mut rng, plan.calls);
    log
}

/// A call of is_malformed. It gives no number; the log counts where 18's condition holds.
#[derive(Debug)]
pub struct Malformed {
    table: Table,
}

impl Subject for Malformed {
    const NAME: &'static str = "is_malformed";
    const NOTE: &'static str = ", which gives no number: counted is where 18's condition holds";
    const LISTED: &'static [u32] = &[18];

    fn good(rng: &mut Rng) -> Malformed {
        let b = rng.width();
        let (columns, pending) = (some_columns(rng, b), rng.below(SLOTS + 1));
        Malformed { table: some_table(rng, b, columns, pending) }
    }

    fn damage(&mut self, _: u32, rng: &mut Rng) {
        let way = rng.below(WAYS);
        spoil(rng, &mut self.table, way);
    }

    fn run(&self, log: &mut Entry) {
        let expected = model::is_malformed(&self.table);
        log.call(if expected { &[18] } else { &[] });
        log.same(face::is_malformed(&self.table), expected, self);
    }
}

pub fn malformed(plan: &Plan) -> Entry {
    let (mut log, mut rng) = plan.start::<Malformed>();
    let full = some_table(&mut rng, 8, 33, SLOTS);
    each_pair(&mut log, &full);
    each_slot(&mut log, &full);
    for next in [0, 1, 2, u32::MAX - 1, u32::MAX] {
        let mut table = model::fresh(14, 19).table;
        table.next = next;
        Malformed { table: table.clone() }.run(&mut log);
        table.numbers[63] = 1;
        Malformed { table }.run(&mut log);
    }
    damaged::<Malformed>(&mut log, &mut rng);
    random::<Malformed>(&mut log, &mut rng, plan.calls);
    log
}

/// Every pair of slots with equal numbers, and with equal digests, but for one byte and whole.
fn each_pair(log: &mut Entry, full: &Table) {
    for first in 0..SLOTS {
        for second in (0..SLOTS).filter(|&second| second != first) {
            let mut table = full.clone();
            table.numbers[first] = table.numbers[second];
            Malformed { table }.run(log);
            let mut digest: [u8; 32] = full.digest(second).try_into().expect("32 bytes");
            let mut table = full.clone();
            table.set_digest(first, &digest);
            Malformed { table: table.clone() }.run(log);
            digest[(first + second) % 32] ^= 1;
            table.set_digest(first, &digest);
            Malformed { table }.run(log);
        }
    }
}

/// Each slot's number at next and next to it; each digest byte of a free slot.
fn each_slot(log: &mut Entry, full: &Table) {
    for slot in 0..SLOTS {
        for number in [full.next - 1, full.next, full.next + 1, u32::MAX] {
            let mut table = full.clone();
            table.numbers[slot] = number;
            Malformed { table }.run(log);
        }
        let mut table = full.clone();
        table.numbers[slot] = 0;
        table.set_digest(slot, &[0; 32]);
        Malformed { table: table.clone() }.run(log);
        for byte in 0..32 {
            let mut table = table.clone();
            table.digests[32 * slot + byte] = 1 << (byte % 8);
            Malformed { table }.run(log);
        }
    }
}
