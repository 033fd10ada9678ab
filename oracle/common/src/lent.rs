//! What the Rust takes from constants, hashes and its filter, and what is lent here: one set for each thread.
//!
//! The number that the Rust calls a key's hash is here the key's place among the lent keys.

use std::cell::{Cell, RefCell};

thread_local! {
    static DIMENSION: Cell<u32> = const { Cell::new(0) };
    static INTERVAL: Cell<u32> = const { Cell::new(0) };
    static KEYS: RefCell<Keys> = const { RefCell::new(Keys::none()) };
}

/// The lent keys, each thing flat and key after key.
struct Keys {
    columns: usize,
    rows: Vec<u32>,
    masks: Vec<u32>,
    positions: Vec<u32>,
    targets: Vec<u32>,
}

impl Keys {
    const fn none() -> Keys {
        Keys { columns: 0, rows: Vec::new(), masks: Vec::new(), positions: Vec::new(), targets: Vec::new() }
    }
}

fn refill(into: &mut Vec<u32>, from: &[u32]) {
    into.clear();
    into.extend_from_slice(from);
}

/// The secret's length, LWE_DIMENSION in the Rust.
pub fn lend_dimension(n: u32) {
    DIMENSION.set(n);
}

pub fn dimension() -> u32 {
    DIMENSION.get()
}

/// The ternary interval.
pub fn lend_interval(interval: u32) {
    INTERVAL.set(interval);
}

pub fn interval() -> u32 {
    INTERVAL.get()
}

/// Lends the keys of a builder: no rows means that the codec makes them.
pub fn lend_keys(columns: usize, rows: &[u32], masks: &[u32], positions: &[u32], targets: &[u32]) {
    KEYS.with_borrow_mut(|keys| {
        keys.columns = columns;
        refill(&mut keys.rows, rows);
        refill(&mut keys.masks, masks);
        refill(&mut keys.positions, positions);
        refill(&mut keys.targets, targets);
    });
}

/// Lends where the one key of a query lies.
pub fn lend_positions(positions: &[u32]) {
    KEYS.with_borrow_mut(|keys| refill(&mut keys.positions, positions));
}

/// Lends the masks of the one key of a reply.
pub fn lend_masks(masks: &[u32]) {
    KEYS.with_borrow_mut(|keys| refill(&mut keys.masks, masks));
}

pub fn columns() -> u32 {
    KEYS.with_borrow(|keys| keys.columns as u32)
}

#[inline]
pub(crate) fn mask(key: u64, column: u64) -> u32 {
    KEYS.with_borrow(|keys| keys.masks[key as usize * keys.columns + column as usize])
}

#[inline]
pub(crate) fn positions<const ARITY: usize>(key: u64) -> [u32; ARITY] {
    KEYS.with_borrow(|keys| std::array::from_fn(|i| keys.positions[key as usize * ARITY + i]))
}

pub(crate) fn targets() -> Vec<u32> {
    KEYS.with_borrow(|keys| keys.targets.clone())
}

/// The lent row of a key, if rows are lent.
pub(crate) fn row(key: u64) -> Option<Vec<u32>> {
    KEYS.with_borrow(|keys| {
        let from = key as usize * keys.columns;
        keys.rows.get(from..from + keys.columns).map(<[u32]>::to_vec)
    })
}
