//! Stands in for the Rust's filter: positions, masks, digests, order and targets are the lent ones.

use std::collections::HashMap;

use crate::error::ChalametPIRError;
use crate::lent;
use crate::params::{HASHED_KEY_BYTE_LEN, SEED_BYTE_LEN};

#[derive(Clone, Debug)]
pub struct BinaryFuseFilter {
    pub seed: [u8; SEED_BYTE_LEN],
    pub arity: u32,
    pub segment_length: u32,
    pub segment_count_length: u32,
    pub filter_size: usize,
    pub num_fingerprints: usize,
    pub mat_elem_bit_len: usize,
}

/// Filter, keys and target indices in the reverse of the writing order, and the key's bytes for each key.
type Constructed<'a> = (BinaryFuseFilter, Vec<u64>, Vec<u32>, HashMap<u64, &'a [u8]>);

impl BinaryFuseFilter {
    fn new(arity: u32, filter_size: usize, num_fingerprints: usize, mat_elem_bit_len: usize) -> BinaryFuseFilter {
        let seed = [0; SEED_BYTE_LEN];
        let (segment_length, segment_count_length) = (0, 0);
        BinaryFuseFilter {
            seed,
            arity,
            segment_length,
            segment_count_length,
            filter_size,
            num_fingerprints,
            mat_elem_bit_len,
        }
    }

    /// The bytes that `from_bytes` takes: arity, rows, width. The Rust's own form isn't in the text given.
    pub fn lent_bytes(arity: u32, rows: u32, mat_elem_bit_len: u32) -> [u8; 12] {
        let mut bytes = [0; 12];
        for (four, number) in bytes.chunks_exact_mut(4).zip([arity, rows, mat_elem_bit_len]) {
            four.copy_from_slice(&number.to_le_bytes());
        }
        bytes
    }

    pub fn from_bytes(bytes: &[u8]) -> Result<BinaryFuseFilter, ChalametPIRError> {
        if bytes.len() != 12 {
            return Err(ChalametPIRError::FailedToDeserializeFilterFromBytes);
        }
        let number = |at: usize| u32::from_le_bytes(bytes[at..at + 4].try_into().unwrap());
        Ok(BinaryFuseFilter::new(number(0), 0, number(4) as usize, number(8) as usize))
    }

    pub fn construct_3_wise_xor_filter<'a>(
        db: &HashMap<&'a [u8], &'a [u8]>,
        mat_elem_bit_len: usize,
        rows: usize,
    ) -> Result<Constructed<'a>, ChalametPIRError> {
        Ok(constructed(3, db, mat_elem_bit_len, rows))
    }

    pub fn construct_4_wise_xor_filter<'a>(
        db: &HashMap<&'a [u8], &'a [u8]>,
        mat_elem_bit_len: usize,
        rows: usize,
    ) -> Result<Constructed<'a>, ChalametPIRError> {
        Ok(constructed(4, db, mat_elem_bit_len, rows))
    }
}

/// Nothing is tried more than once here, so the greatest number of attempts carries the number of rows instead.
fn constructed<'a>(
    arity: u32,
    db: &HashMap<&'a [u8], &'a [u8]>,
    mat_elem_bit_len: usize,
    rows: usize,
) -> Constructed<'a> {
    let count = db.len() as u64;
    // The Rust walks both lists from their ends, and looks up each key without a check: none may be missing.
    let order: Vec<u64> = (0..count).rev().collect();
    let targets: Vec<u32> = lent::targets().into_iter().rev().collect();
    let keys: HashMap<u64, &[u8]> = db.keys().map(|&key| (place_of(key), key)).collect();
    assert!(order.iter().all(|place| keys.contains_key(place)), "a builder's keys are the places 0, 1, 2 ..");
    assert_eq!(targets.len(), order.len(), "each key has one target");
    (BinaryFuseFilter::new(arity, order.len(), rows, mat_elem_bit_len), order, targets, keys)
}

/// The key that stands for a place among the lent keys of a builder.
pub fn key_at(place: u64) -> [u8; 8] {
    place.to_le_bytes()
}

/// The place that a builder's key stands for.
pub(crate) fn place_of(key: &[u8]) -> u64 {
    u64::from_le_bytes(key.try_into().expect("a builder's key has eight bytes"))
}

/// A client's key begins with its digest; two keys that differ after it are two keys of one digest.
pub fn hash_of_key(key: &[u8]) -> [u64; 4] {
    let digest = &key[..HASHED_KEY_BYTE_LEN];
    std::array::from_fn(|i| u64::from_le_bytes(digest[8 * i..8 * i + 8].try_into().unwrap()))
}

/// A client asks about one key at a time, and that is the first of those lent.
pub fn mix256(_hashed_key: &[u64; 4], _seed: &[u8; SEED_BYTE_LEN]) -> u64 {
    0
}

#[inline]
pub fn mix(key: u64, column: u64) -> u64 {
    u64::from(lent::mask(key, column))
}

pub fn hash_batch_for_3_wise_xor_filter(key: u64, _segment_length: u32, _segment_count_length: u32) -> (u32, u32, u32) {
    lent::positions::<3>(key).into()
}

pub fn hash_batch_for_4_wise_xor_filter(
    key: u64,
    _segment_length: u32,
    _segment_count_length: u32,
) -> (u32, u32, u32, u32) {
    lent::positions::<4>(key).into()
}
