//! The builder, with a full database.

use std::collections::HashMap;

use chalametpir_common::binary_fuse_filter::key_at;
use chalametpir_common::lent;
use chalametpir_common::matrix::Matrix;

use crate::clock::median;
use crate::inputs::{Words, C, KEYS, R};
use crate::table::Row;

/// Key i is written into row i. Its other rows are written before it or not at all, so no key leans on a later one.
fn placement() -> (Vec<u32>, Vec<u32>) {
    let mut words = Words(8);
    let (mut positions, mut targets) = (Vec::new(), Vec::new());
    for key in 0..KEYS as u32 {
        let mut four = vec![key];
        while four.len() < 4 {
            let pick = words.below((R - KEYS) as u32 + key);
            let row = if pick < key { pick } else { KEYS as u32 + pick - key };
            if !four.contains(&row) {
                four.push(row);
            }
        }
        let target = words.below(4);
        four.swap(0, target as usize);
        positions.extend(four);
        targets.push(target);
    }
    (positions, targets)
}

/// Rows, masks, positions and targets are lent to the Rust, and its map of keys is made, outside the time. Inside are
/// a map from our stand-in for its filter, a copy of each row in place of its codec, and a look-up in place of its mix.
pub fn rows(b: u32) -> Vec<Row> {
    let (rows, masks) = (Words(9).elements(b, KEYS * C), Words(10).words(KEYS * C));
    let (positions, targets) = placement();
    let mut database = vec![0; R * C];
    let build =
        |database: &mut [u32]| ladletwig::build_database(b, R, C, KEYS, &rows, &masks, &positions, &targets, database);
    let ours = median(|| (), |()| build(&mut database));
    assert_eq!(build(&mut database), Ok(()));

    lent::lend_keys(C, &rows, &masks, &positions, &targets);
    let keys: Vec<[u8; 8]> = (0..KEYS as u64).map(key_at).collect();
    let map = || -> HashMap<&[u8], &[u8]> { keys.iter().map(|key| (&key[..], &[][..])).collect() };
    let rust_build = |map| Matrix::from_kv_database::<4>(map, b as usize, R).unwrap().0;
    assert_eq!(database, rust_build(map()).words());
    vec![Row::both("build_database, 3700 keys", b, ours, median(map, rust_build))]
}
