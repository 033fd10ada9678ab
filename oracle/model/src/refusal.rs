//! 01, "Refusal numbers" and "Numbers we allow": the lists of conditions, and the conditions that entries share.

use std::collections::BTreeSet;

/// One condition, evaluated only when asked.
pub type Condition<'a> = Box<dyn Fn() -> bool + 'a>;

/// The refusals of one call, in the order that 01 gives for its entry.
pub struct Tests<'a>(Vec<(u32, Condition<'a>)>);

impl<'a> Tests<'a> {
    /// An entry without refusals, to which `then` adds.
    pub(crate) fn none() -> Self {
        Tests(Vec::new())
    }

    /// The same list with one more refusal at its end.
    pub(crate) fn then(mut self, number: u32, condition: impl Fn() -> bool + 'a) -> Self {
        self.0.push((number, Box::new(condition)));
        self
    }

    /// The number of the first condition that holds, 0 (success) if none does.
    pub fn first(&self) -> u32 {
        self.0.iter().find(|(_, condition)| condition()).map_or(0, |(number, _)| *number)
    }

    /// The numbers of all conditions that hold by themselves, in order.
    pub fn holding(&self) -> Vec<u32> {
        self.0.iter().filter(|(_, condition)| condition()).map(|(number, _)| *number).collect()
    }
}

/// "R, database rows: 1 to 4,096"; also a packed row's elements, a line's columns, and every dimension of plain product,
/// transpose and matrix bytes.
pub(crate) const ROWS: usize = 4096;
/// "C, database columns: 1 to 512", and the rows of packing.
pub(crate) const COLUMNS: usize = 512;
/// "n, secret length: 1 to 2,048".
pub(crate) const SECRET: usize = 2048;

/// 1: "b outside 4..=14".
pub(crate) fn bad_width(b: u32) -> bool {
    !(4..=14).contains(&b)
}

/// 2: "a dimension outside its limit", which is 1 to `limit`.
pub(crate) fn outside(dimension: usize, limit: usize) -> bool {
    dimension < 1 || dimension > limit
}

/// 2: "a lent length must equal rows times columns".
pub(crate) fn differs(length: usize, rows: usize, columns: usize) -> bool {
    length as u128 != rows as u128 * columns as u128
}

/// 2: "an output too short" for rows times columns words; it "may be longer".
pub(crate) fn too_short(length: usize, rows: usize, columns: usize) -> bool {
    (length as u128) < rows as u128 * columns as u128
}

/// 2: "C·b below 264".
pub(crate) fn too_narrow(b: u32, columns: usize) -> bool {
    columns as u128 * u128::from(b) < 264
}

/// 4: "I outside its range", which is 1 to 1,431,655,765.
pub(crate) fn bad_interval(interval: u32) -> bool {
    !(1..=1_431_655_765).contains(&interval)
}

/// 5: "a position is R or more, or two of the four are equal".
pub(crate) fn bad_positions(positions: [u32; 4], r: usize) -> bool {
    let distinct = BTreeSet::from(positions);
    distinct.len() < 4 || positions.iter().any(|&position| position as usize >= r)
}

/// 17: "a row element is 2^b or more".
pub(crate) fn bad_elements(b: u32, elements: &[u32]) -> bool {
    // No u32 reaches 2^32.
    b < 32 && elements.iter().any(|&element| u64::from(element) >= 1 << b)
}

/// The number modulo 2^bits, `bits` at most 32.
pub(crate) fn modulo(bits: u32, number: i128) -> u32 {
    number.rem_euclid(1 << bits) as u32
}
