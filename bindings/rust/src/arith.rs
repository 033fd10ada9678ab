//! Packing, the packed product, the ternary sampler and the row codec.
//!
//! Notation: b is the width of an element in bits, 4 to 14. A packed word holds four elements for b up to 8, three
//! for 9 and 10, two above that, so a row of k elements takes k / factor words, rounded up.

use crate::raw;
use crate::refusal::{answer, Refusal};

/// Packs `rows` rows of `k` elements each. Only the low b bits of a word count; the first element lies lowest.
///
/// Refusals in order: 1; 2 (`rows` 1 to 512, `k` 1 to 4,096, `words` exactly `rows`·`k`, `out` at least the packed
/// words).
///
/// After: `out` starts with the packed rows and keeps the rest of what it held; on a refusal it keeps all.
pub fn row_wise_compress(b: u32, rows: usize, k: usize, words: &[u32], out: &mut [u32]) -> Result<(), Refusal> {
    // SAFETY: each pointer goes with the length of its own live slice (see `raw`).
    answer(unsafe {
        raw::ladletwig_row_wise_compress(b, rows, k, words.as_ptr(), words.len(), out.as_mut_ptr(), out.len())
    })
}

/// Unpacks `rows` packed rows into `k` elements each: the low b bits of each slot, whatever the other bits are.
///
/// Refusals in order: 1; 2 (`rows` 1 to 512, `k` 1 to 4,096, `words` exactly the packed words, `out` at least
/// `rows`·`k`).
///
/// After: `out` starts with the elements and keeps the rest of what it held; on a refusal it keeps all.
pub fn row_wise_decompress(b: u32, rows: usize, k: usize, words: &[u32], out: &mut [u32]) -> Result<(), Refusal> {
    // SAFETY: each pointer goes with the length of its own live slice (see `raw`).
    answer(unsafe {
        raw::ladletwig_row_wise_decompress(b, rows, k, words.as_ptr(), words.len(), out.as_mut_ptr(), out.len())
    })
}

/// `vector` times the transpose of a packed matrix of `rows` rows and `k` (unpacked) columns: entry j is the sum of
/// the vector's words times the elements of row j, modulo 2^32. This is the host's work for a query.
///
/// Refusals in order: 1; 2 (`rows` 1 to 512, `k` 1 to 4,096, `vector` exactly `k`, `words` exactly the packed
/// words, `out` at least `rows`).
///
/// After: `out` starts with the `rows` sums and keeps the rest of what it held; on a refusal it keeps all.
pub fn row_vector_x_compressed_transposed_matrix(
    b: u32,
    vector: &[u32],
    rows: usize,
    k: usize,
    words: &[u32],
    out: &mut [u32],
) -> Result<(), Refusal> {
    // SAFETY: each pointer goes with the length of its own live slice (see `raw`).
    answer(unsafe {
        raw::ladletwig_row_vector_x_compressed_transposed_matrix(
            b,
            vector.as_ptr(),
            vector.len(),
            rows,
            k,
            words.as_ptr(),
            words.len(),
            out.as_mut_ptr(),
            out.len(),
        )
    })
}

/// Fills `out` with 0, 1 and 2^32-1 (that is -1) drawn from random `words`, and answers how many words were read.
///
/// A word up to `interval` gives 0, one of the next `interval` words 1, one of the `interval` after that -1; a
/// higher one is skipped, though it counts as read. An empty `out` reads nothing.
///
/// Refusals in order: 2 (`out` longer than 4,096); 4; 3.
///
/// After: all of `out` is written; on a refusal it keeps what it held.
pub fn sample_from_uniform_ternary_dist(interval: u32, words: &[u32], out: &mut [u32]) -> Result<usize, Refusal> {
    // SAFETY: each pointer goes with the length of its own live slice (see `raw`).
    let sampled = unsafe {
        raw::ladletwig_sample_from_uniform_ternary_dist(
            interval,
            words.as_ptr(),
            words.len(),
            out.as_mut_ptr(),
            out.len(),
        )
    };
    answer(sampled.number).map(|()| sampled.read)
}

/// [`sample_from_uniform_ternary_dist`] for a caller that goes on drawing: it answers the part of `words` that
/// wasn't read.
///
/// It gives no number. Where its sister refuses, the answer is the whole of `words` and `out` keeps what it held.
pub fn sample_and_return_unread<'w>(interval: u32, words: &'w [u32], out: &mut [u32]) -> &'w [u32] {
    // SAFETY: each pointer goes with the length of its own live slice (see `raw`).
    let start = unsafe {
        raw::ladletwig_sample_and_return_unread(interval, words.as_ptr(), words.len(), out.as_mut_ptr(), out.len())
    };
    &words[start..]
}

/// Writes a member's record as a row of `columns` elements of b bits: the digest, the value, the marker 0x81, zeros.
///
/// Refusals in order: 1; 2 (`columns` 1 to 512, `columns`·b at least 264, `out` at least `columns`); 16 (`value`
/// longer than floor(`columns`·b / 8) - 33 bytes).
///
/// After: `out` starts with the `columns` elements and keeps the rest of what it held; on a refusal it keeps all.
pub fn encode_kv_as_row(
    b: u32,
    columns: usize,
    digest: &[u8; 32],
    value: &[u8],
    out: &mut [u32],
) -> Result<(), Refusal> {
    // SAFETY: the digest is one live array; each other pointer goes with the length of its own live slice (see
    // `raw`).
    answer(unsafe {
        raw::ladletwig_encode_kv_as_row(b, columns, digest, value.as_ptr(), value.len(), out.as_mut_ptr(), out.len())
    })
}

/// Reads a row back into digest and value, and answers the value's length.
///
/// Refusals in order: 1; 2 (`columns` 1 to 512, `columns`·b at least 264, `row` exactly `columns`, `digest` at least
/// 32, `value` at least floor(`columns`·b / 8) - 33); 17; 13.
///
/// After: `digest` starts with the 32 bytes and `value` with the value, and each keeps the rest of what it held; on
/// a refusal both keep all.
pub fn decode_kv_from_row(
    b: u32,
    columns: usize,
    row: &[u32],
    digest: &mut [u8],
    value: &mut [u8],
) -> Result<usize, Refusal> {
    // SAFETY: each pointer goes with the length of its own live slice (see `raw`).
    let decoded = unsafe {
        raw::ladletwig_decode_kv_from_row(
            b,
            columns,
            row.as_ptr(),
            row.len(),
            digest.as_mut_ptr(),
            digest.len(),
            value.as_mut_ptr(),
            value.len(),
        )
    };
    answer(decoded.number).map(|()| decoded.length)
}
