//! 01, "Pending table".

use std::fmt;

use crate::codec::bad_columns;
use crate::refusal::{bad_width, Tests};

/// "Pending slots: 64."
pub const SLOTS: usize = 64;

/// The pending table; "a free slot has number 0", a used one its ticket.
#[derive(Clone, PartialEq, Eq)]
pub struct Table {
    pub b: u32,
    pub columns: usize,
    pub next: u32,
    pub numbers: [u32; SLOTS],
    pub digests: [u8; 32 * SLOTS],
}

/// What `fresh` answers: the refusal number and the table.
#[derive(Clone, Debug, PartialEq, Eq)]
pub struct Made {
    pub number: u32,
    pub table: Table,
}

impl Table {
    /// The 32 digest bytes of a slot.
    pub fn digest(&self, slot: usize) -> &[u8] {
        &self.digests[32 * slot..32 * (slot + 1)]
    }

    /// Sets the 32 digest bytes of a slot.
    pub fn set_digest(&mut self, slot: usize, digest: &[u8; 32]) {
        self.digests[32 * slot..32 * (slot + 1)].copy_from_slice(digest);
    }

    /// The slots in use, in rising order.
    pub fn used(&self) -> Vec<usize> {
        (0..SLOTS).filter(|&slot| self.numbers[slot] != 0).collect()
    }

    /// "The lowest free slot".
    pub fn free(&self) -> Option<usize> {
        self.numbers.iter().position(|&number| number == 0)
    }

    /// The slot of a pending ticket; "0 never is".
    pub fn slot(&self, ticket: u32) -> Option<usize> {
        self.used().into_iter().find(|&slot| self.numbers[slot] == ticket)
    }

    /// "Slot s at s·C": its range in the slab.
    pub fn part(&self, slot: usize) -> std::ops::Range<usize> {
        slot * self.columns..(slot + 1) * self.columns
    }

    /// A slot's digest is all zero.
    fn blank(&self, slot: usize) -> bool {
        self.digest(slot).iter().all(|&byte| byte == 0)
    }
}

impl fmt::Debug for Table {
    /// b, columns, next, and (slot, number, digest) of the slots that hold something.
    fn fmt(&self, f: &mut fmt::Formatter<'_>) -> fmt::Result {
        let holds = |slot: &usize| self.numbers[*slot] != 0 || !self.blank(*slot);
        let slots = (0..SLOTS).filter(holds).map(|slot| (slot, self.numbers[slot], self.digest(slot)));
        f.debug_struct("Table")
            .field("b", &self.b)
            .field("columns", &self.columns)
            .field("next", &self.next)
            .field("slots", &slots.collect::<Vec<_>>())
            .finish()
    }
}

/// "Fresh table: 1, 2." "A table further needs C·b of at least 264."
pub fn fresh_tests(b: u32, columns: usize) -> Tests<'static> {
    Tests::none().then(1, move || bad_width(b)).then(2, move || bad_columns(b, columns))
}

/// "Fresh: next number 1, all 64 slots free, 2,048 digest bytes all zero." A refused one is all zero.
pub fn fresh(b: u32, columns: usize) -> Made {
    let number = fresh_tests(b, columns).first();
    let (b, columns, next) = if number == 0 { (b, columns, 1) } else { (0, 0, 0) };
    Made { number, table: Table { b, columns, next, numbers: [0; SLOTS], digests: [0; 32 * SLOTS] } }
}

/// 18: "table malformed: b, C or C·b outside limits; next number 0; a used number at or above next; two used slots
/// equal in number or digest; a free slot with a nonzero digest byte".
pub fn is_malformed(table: &Table) -> bool {
    let used = table.used();
    let equal = |s: usize, t: usize| table.numbers[s] == table.numbers[t] || table.digest(s) == table.digest(t);
    bad_width(table.b)
        || bad_columns(table.b, table.columns)
        || table.next == 0
        || used.iter().any(|&slot| table.numbers[slot] >= table.next)
        || used.iter().any(|&s| used.iter().any(|&t| s < t && equal(s, t)))
        || (0..SLOTS).any(|slot| table.numbers[slot] == 0 && !table.blank(slot))
}
