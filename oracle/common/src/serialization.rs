//! Document 01's row codec, written from 01: the Rust's own isn't in the text given.
//!
//! Bits run lowest first, through elements and through bytes. The bytes of a row are the digest, the value, a marker
//! and zeros; what is left over after the last whole byte is written zero and ignored.

use crate::binary_fuse_filter;
use crate::error::ChalametPIRError;
use crate::lent;
use crate::params::HASHED_KEY_BYTE_LEN;

const MARKER: u8 = 0x81;

/// A builder's row: the lent one where rows are lent, since 01's builder takes any row; else a client key's own.
pub fn encode_kv_as_row(key: &[u8], value: &[u8], mat_elem_bit_len: usize, cols: u32) -> Vec<u32> {
    if key.len() < HASHED_KEY_BYTE_LEN {
        return lent::row(binary_fuse_filter::place_of(key)).expect("a builder's rows are lent");
    }
    let mut bytes = key[..HASHED_KEY_BYTE_LEN].to_vec();
    bytes.extend_from_slice(value);
    bytes.push(MARKER);
    elements_of(&bytes, mat_elem_bit_len, cols as usize)
}

/// The digest and the value after it.
pub fn decode_kv_from_row(row: &[u32], mat_elem_bit_len: usize) -> Result<Vec<u8>, ChalametPIRError> {
    let mut bytes = bytes_of(row, mat_elem_bit_len);
    match bytes.iter().rposition(|&byte| byte != 0) {
        Some(last) if last >= HASHED_KEY_BYTE_LEN && bytes[last] == MARKER => {
            bytes.truncate(last);
            Ok(bytes)
        }
        _ => Err(ChalametPIRError::RowHasNoMarker),
    }
}

fn elements_of(bytes: &[u8], width: usize, columns: usize) -> Vec<u32> {
    assert!(8 * bytes.len() <= columns * width, "the value is too long for the row");
    let (mut held, mut bits) = (0u64, 0);
    let mut rest = bytes.iter();
    let mut element = || {
        while bits < width {
            held |= u64::from(*rest.next().unwrap_or(&0)) << bits;
            bits += 8;
        }
        let low = held & ((1 << width) - 1);
        held >>= width;
        bits -= width;
        low as u32
    };
    (0..columns).map(|_| element()).collect()
}

fn bytes_of(row: &[u32], width: usize) -> Vec<u8> {
    let mut bytes = Vec::with_capacity(row.len() * width / 8);
    let (mut held, mut bits) = (0u64, 0);
    for &element in row {
        held |= u64::from(element) << bits;
        bits += width;
        while bits >= 8 {
            bytes.push(held as u8);
            held >>= 8;
            bits -= 8;
        }
    }
    bytes
}
