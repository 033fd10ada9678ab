//! 01, "Builder": the database D from keys in a proposed writing order.

use std::collections::BTreeSet;

use crate::refusal::{
    bad_elements, bad_positions, bad_width, differs, modulo, outside, too_short, Tests, COLUMNS, ROWS,
};

/// Key `key`'s four positions.
fn positions_of(positions: &[u32], key: usize) -> [u32; 4] {
    std::array::from_fn(|i| positions[4 * key + i])
}

/// "Some key has positions bad in the sense of 5 or an index above 3, or its target position is among the positions of
/// a key written before it."
fn placement_broken(r: usize, positions: &[u32], targets: &[u32]) -> bool {
    let mut before = BTreeSet::new();
    for (key, &target) in targets.iter().enumerate() {
        let four = positions_of(positions, key);
        if bad_positions(four, r) || target > 3 || before.contains(&four[target as usize]) {
            return true;
        }
        before.extend(four);
    }
    false
}

/// "Builder: 1, 2, 17, 15." "Keys, 0 to R of them (more is 2)", each with C elements, C masks, four positions and a
/// target; "the builder has no such bound" on C·b.
pub fn build_database_tests<'a>(
    b: u32,
    r: usize,
    columns: usize,
    count: usize,
    rows: &'a [u32],
    masks: &'a [u32],
    positions: &'a [u32],
    targets: &'a [u32],
    database: &'a [u32],
) -> Tests<'a> {
    Tests::none()
        .then(1, move || bad_width(b))
        .then(2, move || {
            outside(r, ROWS)
                || outside(columns, COLUMNS)
                || count > r
                || differs(rows.len(), count, columns)
                || differs(masks.len(), count, columns)
                || differs(positions.len(), count, 4)
                || targets.len() != count
                || too_short(database.len(), r, columns)
        })
        .then(17, move || bad_elements(b, rows))
        .then(15, move || {
            let there = !differs(positions.len(), count, 4) && targets.len() == count;
            there && placement_broken(r, positions, targets)
        })
}

/// "The key's target row becomes its row less the other three rows less the masks, modulo 2^b": its element j.
fn target_element(b: u32, row: u32, others: [u32; 3], mask: u32) -> u32 {
    let others: i128 = others.iter().map(|&other| i128::from(other)).sum();
    modulo(b, i128::from(row) - others - i128::from(mask))
}

/// "The builder takes D as all zero, whatever the lent words held", then writes key after key.
pub fn build_database(
    b: u32,
    r: usize,
    columns: usize,
    count: usize,
    rows: &[u32],
    masks: &[u32],
    positions: &[u32],
    targets: &[u32],
    database: &mut [u32],
) -> u32 {
    let number = build_database_tests(b, r, columns, count, rows, masks, positions, targets, database).first();
    if number != 0 {
        return number;
    }
    database[..r * columns].fill(0);
    for key in 0..count {
        let at = positions_of(positions, key).map(|position| position as usize * columns);
        let target = targets[key] as usize;
        for j in 0..columns {
            let others = [1, 2, 3].map(|i| database[at[(target + i) % 4] + j]);
            let (row, mask) = (rows[key * columns + j], masks[key * columns + j]);
            database[at[target] + j] = target_element(b, row, others, mask);
        }
    }
    0
}
