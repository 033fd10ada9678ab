//! 01, "Matrix bytes": "rows, columns, elements, each u32 little-endian."

use crate::refusal::{differs, outside, too_short, Tests, ROWS};

/// What the reader answers: the refusal number and the dimensions.
#[derive(Clone, Debug, PartialEq, Eq)]
pub struct Parsed {
    pub number: u32,
    pub rows: usize,
    pub columns: usize,
}

/// The u32 in little-endian order at index `at`, if its four bytes are there.
pub(crate) fn word_at(bytes: &[u8], at: usize) -> Option<u32> {
    let four = bytes.get(at..at + 4)?;
    Some(four.iter().rev().fold(0, |word, &byte| word * 256 + u32::from(byte)))
}

/// The dimensions that matrix bytes state, if their eight bytes are there.
pub(crate) fn stated_dimensions(bytes: &[u8]) -> Option<(usize, usize)> {
    Some((word_at(bytes, 0)? as usize, word_at(bytes, 4)? as usize))
}

/// "Exactly the length its dimensions give": eight bytes, and four for each element.
pub(crate) fn has_stated_length(bytes: &[u8]) -> bool {
    let gives = |(rows, columns)| 8 + 4 * rows as u128 * columns as u128;
    stated_dimensions(bytes).is_some_and(|dimensions| bytes.len() as u128 == gives(dimensions))
}

/// The elements after the dimensions.
pub(crate) fn elements(bytes: &[u8]) -> impl Iterator<Item = u32> + '_ {
    (8..bytes.len()).step_by(4).filter_map(|at| word_at(bytes, at))
}

/// The bytes of a matrix.
pub(crate) fn matrix_bytes(rows: usize, columns: usize, words: &[u32]) -> Vec<u8> {
    let dimensions = [rows as u32, columns as u32];
    dimensions.iter().chain(words).flat_map(|word| word.to_le_bytes()).collect()
}

/// "Matrix-bytes writer: 2."
pub fn to_bytes_tests<'a>(rows: usize, columns: usize, words: &'a [u32], out: &'a [u8]) -> Tests<'a> {
    Tests::none().then(2, move || {
        outside(rows, ROWS)
            || outside(columns, ROWS)
            || differs(words.len(), rows, columns)
            || out.len() < 8 + 4 * rows * columns
    })
}

/// Writes the bytes of a matrix to the start of the output.
pub fn to_bytes(rows: usize, columns: usize, words: &[u32], out: &mut [u8]) -> u32 {
    let number = to_bytes_tests(rows, columns, words, out).first();
    if number != 0 {
        return number;
    }
    let bytes = matrix_bytes(rows, columns, words);
    out[..bytes.len()].copy_from_slice(&bytes);
    0
}

/// "Line reader, line writer, matrix-bytes reader: 11, 2."
pub fn from_bytes_tests<'a>(bytes: &'a [u8], out: &'a [u32]) -> Tests<'a> {
    Tests::none().then(11, move || !has_stated_length(bytes)).then(2, move || {
        stated_dimensions(bytes).is_some_and(|(rows, columns)| {
            outside(rows, ROWS) || outside(columns, ROWS) || too_short(out.len(), rows, columns)
        })
    })
}

/// Reads the elements to the start of the output and answers the dimensions.
pub fn from_bytes(bytes: &[u8], out: &mut [u32]) -> Parsed {
    let number = from_bytes_tests(bytes, out).first();
    if number != 0 {
        return Parsed { number, rows: 0, columns: 0 };
    }
    for (to, element) in out.iter_mut().zip(elements(bytes)) {
        *to = element;
    }
    let (rows, columns) = stated_dimensions(bytes).expect("11 does not hold");
    Parsed { number, rows, columns }
}
