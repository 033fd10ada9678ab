//! Plain matrices, row after row of 32-bit words: product, transpose, and their bytes.

use crate::raw;
use crate::refusal::{answer, Refusal};

/// The product of an `r`×`m` and an `m`×`c` matrix, modulo 2^32. The hint of a database D is `plain_product` of A
/// and D.
///
/// Refusals: 2 (`r`, `m`, `c` 1 to 4,096, `left` exactly `r`·`m`, `right` exactly `m`·`c`, `out` at least `r`·`c`).
///
/// After: `out` starts with the `r`·`c` words and keeps the rest of what it held; on a refusal it keeps all.
pub fn plain_product(
    r: usize,
    m: usize,
    c: usize,
    left: &[u32],
    right: &[u32],
    out: &mut [u32],
) -> Result<(), Refusal> {
    // SAFETY: each pointer goes with the length of its own live slice (see `raw`).
    answer(unsafe {
        raw::ladletwig_plain_product(
            r,
            m,
            c,
            left.as_ptr(),
            left.len(),
            right.as_ptr(),
            right.len(),
            out.as_mut_ptr(),
            out.len(),
        )
    })
}

/// The `c`×`r` transpose of an `r`×`c` matrix.
///
/// Refusals: 2 (`r`, `c` 1 to 4,096, `words` exactly `r`·`c`, `out` at least `r`·`c`).
///
/// After: `out` starts with the transpose and keeps the rest of what it held; on a refusal it keeps all.
pub fn transpose(r: usize, c: usize, words: &[u32], out: &mut [u32]) -> Result<(), Refusal> {
    // SAFETY: each pointer goes with the length of its own live slice (see `raw`).
    answer(unsafe { raw::ladletwig_transpose(r, c, words.as_ptr(), words.len(), out.as_mut_ptr(), out.len()) })
}

/// Writes a matrix as bytes: rows, columns, then the words, each as four bytes, lowest first.
///
/// Refusals: 2 (`rows`, `columns` 1 to 4,096, `words` exactly `rows`·`columns`, `out` at least 8 +
/// 4·`rows`·`columns`).
///
/// After: `out` starts with the bytes and keeps the rest of what it held; on a refusal it keeps all.
pub fn to_bytes(rows: usize, columns: usize, words: &[u32], out: &mut [u8]) -> Result<(), Refusal> {
    // SAFETY: each pointer goes with the length of its own live slice (see `raw`).
    answer(unsafe { raw::ladletwig_to_bytes(rows, columns, words.as_ptr(), words.len(), out.as_mut_ptr(), out.len()) })
}

/// Reads a matrix from its bytes and answers its rows and columns.
///
/// Refusals in order: 11 (`bytes` hasn't exactly the length that its own dimensions give, or hasn't the 8 bytes of
/// the dimensions); 2 (a dimension outside 1 to 4,096, `out` shorter than rows·columns).
///
/// After: `out` starts with the words and keeps the rest of what it held; on a refusal it keeps all.
pub fn from_bytes(bytes: &[u8], out: &mut [u32]) -> Result<(usize, usize), Refusal> {
    // SAFETY: each pointer goes with the length of its own live slice (see `raw`).
    let parsed = unsafe { raw::ladletwig_from_bytes(bytes.as_ptr(), bytes.len(), out.as_mut_ptr(), out.len()) };
    answer(parsed.number).map(|()| (parsed.rows, parsed.columns))
}
