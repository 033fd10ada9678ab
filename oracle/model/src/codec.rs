//! 01, "Row codec": "Bits run lowest first, through elements and through bytes."

use crate::refusal::{bad_elements, bad_width, outside, too_narrow, Tests, COLUMNS};

/// What the row reader answers: the refusal number and the value's length.
#[derive(Clone, Debug, PartialEq, Eq)]
pub struct Decoded {
    pub number: u32,
    pub length: usize,
}

/// The byte after the value.
const MARKER: u8 = 0x81;

/// floor(C·b/8)-33: the longest value's length.
pub fn value_room(b: u32, columns: usize) -> i128 {
    columns as i128 * i128::from(b) / 8 - 33
}

/// Bit `index` of the bytes, zero past their end.
fn bit_of_bytes(bytes: &[u8], index: u128) -> u32 {
    let byte = usize::try_from(index / 8).ok().and_then(|at| bytes.get(at));
    byte.map_or(0, |&byte| u32::from(byte >> (index % 8)) % 2)
}

/// The C elements whose bits are those of the bytes; "further bits are written zero".
pub fn row_of(b: u32, columns: usize, bytes: &[u8]) -> Vec<u32> {
    let element = |j: usize| {
        let start = j as u128 * u128::from(b);
        (0..b.min(32)).map(|i| bit_of_bytes(bytes, start + u128::from(i)) << i).sum()
    };
    (0..columns).map(element).collect()
}

/// The floor(C·b/8) bytes of a row, for b 1 to 32; "bits past the last whole byte are ignored".
pub(crate) fn row_bytes(b: u32, row: &[u32]) -> Vec<u8> {
    let b = b as usize;
    let bit = |index: usize| (row[index / b] >> (index % b)) as u8 % 2;
    (0..row.len() * b / 8).map(|at| (0..8).map(|i| bit(8 * at + i) << i).sum()).collect()
}

/// "Last nonzero byte must be 0x81 at index 32 or later": its index.
pub(crate) fn marker(bytes: &[u8]) -> Option<usize> {
    let last = bytes.iter().rposition(|&byte| byte != 0)?;
    (bytes[last] == MARKER && last >= 32).then_some(last)
}

/// 2 in row writer, row reader and fresh table, and a part of 18: C outside its limit or C·b below 264.
pub(crate) fn bad_columns(b: u32, columns: usize) -> bool {
    outside(columns, COLUMNS) || too_narrow(b, columns)
}

/// "Row writer: 1, 2, 16."
pub fn encode_kv_as_row_tests<'a>(b: u32, columns: usize, value: &'a [u8], out: &'a [u32]) -> Tests<'a> {
    Tests::none()
        .then(1, move || bad_width(b))
        .then(2, move || bad_columns(b, columns) || out.len() < columns)
        .then(16, move || value.len() as i128 > value_room(b, columns))
}

/// "Bytes: 32 digest, the value, 0x81, zeros to floor(C·b/8) bytes".
pub fn encode_kv_as_row(b: u32, columns: usize, digest: &[u8; 32], value: &[u8], out: &mut [u32]) -> u32 {
    let number = encode_kv_as_row_tests(b, columns, value, out).first();
    if number != 0 {
        return number;
    }
    let bytes = [digest, value, &[MARKER]].concat();
    out[..columns].copy_from_slice(&row_of(b, columns, &bytes));
    0
}

/// "Row reader: 1, 2, 17, 13."
pub fn decode_kv_from_row_tests<'a>(
    b: u32,
    columns: usize,
    row: &'a [u32],
    digest: &'a [u8],
    value: &'a [u8],
) -> Tests<'a> {
    Tests::none()
        .then(1, move || bad_width(b))
        .then(2, move || {
            bad_columns(b, columns)
                || row.len() != columns
                || digest.len() < 32
                || (value.len() as i128) < value_room(b, columns)
        })
        .then(17, move || bad_elements(b, row))
        .then(13, move || (1..=32).contains(&b) && row.len() == columns && marker(&row_bytes(b, row)).is_none())
}

/// "It writes the 32 digest bytes and the value [...] and returns the value's length."
pub fn decode_kv_from_row(b: u32, columns: usize, row: &[u32], digest: &mut [u8], value: &mut [u8]) -> Decoded {
    let number = decode_kv_from_row_tests(b, columns, row, digest, value).first();
    if number != 0 {
        return Decoded { number, length: 0 };
    }
    let bytes = row_bytes(b, row);
    let end = marker(&bytes).expect("13 does not hold");
    digest[..32].copy_from_slice(&bytes[..32]);
    value[..end - 32].copy_from_slice(&bytes[32..end]);
    Decoded { number, length: end - 32 }
}
