//! The database's builder.

use crate::raw;
use crate::refusal::{answer, Refusal};

/// Builds a database of `r` rows and `columns` columns in which each key's four rows and its masks sum up to its
/// own row, modulo 2^b.
///
/// There are `count` keys in the order in which they are to be written, one after the other in each slice: `rows`
/// and `masks` have `columns` words a key, `positions` four, `targets` one (which of the four positions is written, 0
/// to 3). A mask may be any word; a row's elements lie below 2^b. What `database` held before doesn't count.
/// For b and `r` see "Choosing b and R" on the crate's [first page](crate).
///
/// Refusals in order: 1; 2 (`r` 1 to 4,096, `columns` 1 to 512, `count` at most `r`, the four slices exactly as
/// long as said, `database` at least `r`·`columns`); 17 (an element of any row); 15 (a position that is no row, two
/// equal positions, a target above 3, or a target row among the positions of a key written before).
///
/// After: `database` starts with the `r`·`columns` words and keeps the rest of what it held; on a refusal it keeps
/// all.
#[allow(clippy::too_many_arguments)] // the library's own list, kept in its order
pub fn build_database(
    b: u32,
    r: usize,
    columns: usize,
    count: usize,
    rows: &[u32],
    masks: &[u32],
    positions: &[u32],
    targets: &[u32],
    database: &mut [u32],
) -> Result<(), Refusal> {
    // SAFETY: each pointer goes with the length of its own live slice (see `raw`).
    answer(unsafe {
        raw::ladletwig_build_database(
            b,
            r,
            columns,
            count,
            rows.as_ptr(),
            rows.len(),
            masks.as_ptr(),
            masks.len(),
            positions.as_ptr(),
            positions.len(),
            targets.as_ptr(),
            targets.len(),
            database.as_mut_ptr(),
            database.len(),
        )
    })
}
