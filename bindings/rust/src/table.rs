//! The pending table: what a terminal has asked for and not yet heard about.

use std::error::Error;
use std::fmt;

use crate::raw;
use crate::refusal::{answer, Refusal};

/// 64 slots of pending queries, owned by the caller. The secrets that belong to them lie in a slab of 64·C words
/// that is lent to each call beside the table: slot s has the C words from s·C on.
///
/// The fields are open so that a table can be stored and looked at. A malformed one is refused with 18: b, C or C·b
/// outside its limits, next 0, a used slot's number at next or above, two used slots with one number or one digest,
/// or a free slot with a digest byte other than 0. The slab can't be checked in this way: between calls nobody else
/// may write it.
#[derive(Clone, Debug, PartialEq, Eq)]
#[repr(C)]
pub struct Table {
    /// The element width b.
    pub b: u32,
    /// C, the database's columns.
    pub columns: usize,
    /// The number that the next ticket gets. Numbers are never used again.
    pub next: u32,
    /// The ticket in each slot; 0 is a free slot.
    pub numbers: [u32; 64],
    /// 32 bytes for each slot: the digest that was asked for; zeros in a free slot.
    pub digests: [u8; 2048],
}

/// What a successful open gives.
#[derive(Clone, Copy, Debug, PartialEq, Eq)]
pub struct Ticket {
    /// The ticket's number, which the query line carries and the response line brings back.
    pub number: u32,
    /// How many of the random words were read. They must not be used again.
    pub read: usize,
}

/// What a refused open gives.
#[derive(Clone, Copy, Debug, PartialEq, Eq)]
pub struct Unopened {
    /// Why.
    pub refusal: Refusal,
    /// How many of the random words were read: 0 except on [`Refusal::Wraps`] (6). They must not be used again.
    pub read: usize,
}

impl fmt::Display for Unopened {
    fn fmt(&self, f: &mut fmt::Formatter<'_>) -> fmt::Result {
        self.refusal.fmt(f)?;
        match self.read {
            0 => Ok(()),
            read => write!(f, " ({read} random words are used up)"),
        }
    }
}

impl Error for Unopened {
    fn source(&self) -> Option<&(dyn Error + 'static)> {
        Some(&self.refusal)
    }
}

impl Table {
    /// A table with 64 free slots, whose first ticket will be 1.
    ///
    /// Refusals in order: 1; 2 (`columns` 1 to 512, `columns`·b at least 264).
    pub fn fresh(b: u32, columns: usize) -> Result<Table, Refusal> {
        // SAFETY: only numbers cross (see `raw`).
        let made = unsafe { raw::ladletwig_fresh(b, columns) };
        answer(made.number).map(|()| made.table)
    }

    /// Whether every call on this table would be refused with 18.
    pub fn is_malformed(&self) -> bool {
        // SAFETY: the table crosses by value (see `raw`).
        unsafe { raw::ladletwig_is_malformed(self.clone()) }
    }

    /// Opens a query: draws a secret of `n` words and an error of `r` words from `words`, writes the query, and
    /// keeps what its response will need under a new ticket.
    ///
    /// `matrix` is A (`n`×`r`), `hint` is A·D (`n`×C), `positions` and `digest` are the key's;
    /// `secret` and `error` are work space.
    ///
    /// Refusals in order: 18; 2 (`n` 1 to 2,048, `r` 1 to 4,096, `matrix` exactly `n`·`r`, `hint` exactly `n`·C,
    /// `slab` exactly 64·C, `secret` exactly `n`, `error` exactly `r`, `query` at least `r`); 4; 5; 7; 8; 9; 3; 6.
    ///
    /// After success: `query` starts with the `r` words and keeps the rest of what it held, the new slot's C words of
    /// `slab` hold its secret, `secret` and `error` are all zero. After 6: `secret` and `error` are all zero and
    /// [`Unopened::read`] is the number of words read, which must not be used again; all else is as it was. After any
    /// other refusal everything is as it was.
    #[allow(clippy::too_many_arguments)] // the library's own list, kept in its order
    pub fn query_for_4_wise_xor_filter(
        &mut self,
        slab: &mut [u32],
        n: usize,
        r: usize,
        matrix: &[u32],
        hint: &[u32],
        interval: u32,
        positions: [u32; 4],
        digest: &[u8; 32],
        words: &[u32],
        secret: &mut [u32],
        error: &mut [u32],
        query: &mut [u32],
    ) -> Result<Ticket, Unopened> {
        #[rustfmt::skip] // each pointer beside its length
        // SAFETY: the digest is one live array; each other pointer goes with the length of its own live slice;
        // table and positions cross by value (see `raw`).
        let opened = unsafe {
            raw::ladletwig_query_for_4_wise_xor_filter(
                self.clone(), slab.as_mut_ptr(), slab.len(), n, r,
                matrix.as_ptr(), matrix.len(), hint.as_ptr(), hint.len(),
                interval, raw::Positions { at: positions }, digest, words.as_ptr(), words.len(),
                secret.as_mut_ptr(), secret.len(), error.as_mut_ptr(), error.len(), query.as_mut_ptr(), query.len(),
            )
        };
        *self = opened.table;
        match answer(opened.number) {
            Ok(()) => Ok(Ticket { number: opened.ticket, read: opened.read }),
            Err(refusal) => Err(Unopened { refusal, read: opened.read }),
        }
    }

    /// Takes the host's response for a pending ticket, writes the member's value and answers its length.
    ///
    /// `masks` are the key's C masks.
    ///
    /// Refusals in order: 18; 2 (`slab` exactly 64·C, `masks` exactly C, `value` at least floor(C·b / 8) - 33); 10;
    /// 12 (`response` isn't C words); 17; 13; 14.
    ///
    /// After success, 13 and 14 the ticket is closed: its slot is free, its digest and its words of `slab` are
    /// zero. After success `value` starts with the value and keeps the rest of what it held; after 13 and 14 it
    /// keeps all. After any other refusal everything is as it was, so after 12 the good response can still come.
    pub fn process_response(
        &mut self,
        slab: &mut [u32],
        ticket: u32,
        response: &[u32],
        masks: &[u32],
        value: &mut [u8],
    ) -> Result<usize, Refusal> {
        // SAFETY: each pointer goes with the length of its own live slice; the table crosses by value (see `raw`).
        let replied = unsafe {
            raw::ladletwig_process_response(
                self.clone(),
                slab.as_mut_ptr(),
                slab.len(),
                ticket,
                response.as_ptr(),
                response.len(),
                masks.as_ptr(),
                masks.len(),
                value.as_mut_ptr(),
                value.len(),
            )
        };
        *self = replied.table;
        answer(replied.number).map(|()| replied.length)
    }

    /// Gives up a pending ticket. A response that comes later gets 10.
    ///
    /// Refusals in order: 18; 2 (`slab` exactly 64·C); 10.
    ///
    /// After: the slot is free, its digest and its words of `slab` are zero; on a refusal everything is as it was.
    pub fn discard_query(&mut self, slab: &mut [u32], ticket: u32) -> Result<(), Refusal> {
        // SAFETY: the pointer goes with the length of its own live slice; the table crosses by value (see `raw`).
        let discarded = unsafe { raw::ladletwig_discard_query(self.clone(), slab.as_mut_ptr(), slab.len(), ticket) };
        *self = discarded.table;
        answer(discarded.number)
    }
}
