//! The archive's functions as C has them, and the structs that they answer with. Nothing outside this crate sees them,
//! unless it asks for the feature `raw`.
//!
//! What every call below leans on, so that a `SAFETY` line can be short:
//! - the archive reads and writes only inside the slices that it is lent, which is proved there for all arguments;
//! - it keeps no pointer after it returns and has no state of its own;
//! - it takes every value of every argument, so no call has a condition besides "pointer and length are of one
//!   slice";
//! - in safe Rust no `&mut` slice overlaps another argument, which is what the archive supposes of its buffers.

#![allow(missing_docs)] // include/ladletwig.h says what each of them is

use crate::table::Table;

#[repr(C)]
pub struct Positions {
    pub at: [u32; 4],
}

#[repr(C)]
pub struct Sampled {
    pub number: u32,
    pub read: usize,
}

#[repr(C)]
pub struct Parsed {
    pub number: u32,
    pub rows: usize,
    pub columns: usize,
}

#[repr(C)]
pub struct Decoded {
    pub number: u32,
    pub length: usize,
}

#[repr(C)]
pub struct Made {
    pub number: u32,
    pub table: Table,
}

#[repr(C)]
pub struct Opened {
    pub number: u32,
    pub ticket: u32,
    pub read: usize,
    pub table: Table,
}

#[repr(C)]
pub struct Replied {
    pub number: u32,
    pub length: usize,
    pub table: Table,
}

#[repr(C)]
pub struct Discarded {
    pub number: u32,
    pub table: Table,
}

#[repr(C)]
pub struct LineWritten {
    pub number: u32,
    pub length: usize,
}

#[repr(C)]
pub struct LineRead {
    pub number: u32,
    pub ticket: u32,
    pub columns: usize,
}

#[rustfmt::skip] // a line for each lent buffer: pointer, then length in elements
unsafe extern "C" {
    pub fn ladletwig_row_wise_compress(
        b: u32, rows: usize, k: usize,
        words: *const u32, words_len: usize,
        out: *mut u32, out_len: usize,
    ) -> u32;
    pub fn ladletwig_row_wise_decompress(
        b: u32, rows: usize, k: usize,
        words: *const u32, words_len: usize,
        out: *mut u32, out_len: usize,
    ) -> u32;
    pub fn ladletwig_row_vector_x_compressed_transposed_matrix(
        b: u32,
        vector: *const u32, vector_len: usize,
        rows: usize, k: usize,
        words: *const u32, words_len: usize,
        out: *mut u32, out_len: usize,
    ) -> u32;
    pub fn ladletwig_plain_product(
        r: usize, m: usize, c: usize,
        left: *const u32, left_len: usize,
        right: *const u32, right_len: usize,
        out: *mut u32, out_len: usize,
    ) -> u32;
    pub fn ladletwig_transpose(
        r: usize, c: usize,
        words: *const u32, words_len: usize,
        out: *mut u32, out_len: usize,
    ) -> u32;
    pub fn ladletwig_sample_from_uniform_ternary_dist(
        interval: u32,
        words: *const u32, words_len: usize,
        out: *mut u32, out_len: usize,
    ) -> Sampled;
    pub fn ladletwig_sample_and_return_unread(
        interval: u32,
        words: *const u32, words_len: usize,
        out: *mut u32, out_len: usize,
    ) -> usize;
    pub fn ladletwig_to_bytes(
        rows: usize, columns: usize,
        words: *const u32, words_len: usize,
        out: *mut u8, out_len: usize,
    ) -> u32;
    pub fn ladletwig_from_bytes(
        bytes: *const u8, bytes_len: usize,
        out: *mut u32, out_len: usize,
    ) -> Parsed;
    pub fn ladletwig_encode_kv_as_row(
        b: u32, columns: usize,
        digest: *const [u8; 32],
        value: *const u8, value_len: usize,
        out: *mut u32, out_len: usize,
    ) -> u32;
    pub fn ladletwig_decode_kv_from_row(
        b: u32, columns: usize,
        row: *const u32, row_len: usize,
        digest: *mut u8, digest_len: usize,
        value: *mut u8, value_len: usize,
    ) -> Decoded;
    pub fn ladletwig_build_database(
        b: u32, r: usize, columns: usize, count: usize,
        rows: *const u32, rows_len: usize,
        masks: *const u32, masks_len: usize,
        positions: *const u32, positions_len: usize,
        targets: *const u32, targets_len: usize,
        database: *mut u32, database_len: usize,
    ) -> u32;
    pub fn ladletwig_calculate_query_indicator(b: u32) -> u32;
    pub fn ladletwig_rounded(b: u32, u: u32) -> u32;
    pub fn ladletwig_fresh(b: u32, columns: usize) -> Made;
    pub fn ladletwig_is_malformed(table: Table) -> bool;
    pub fn ladletwig_query_for_4_wise_xor_filter(
        table: Table,
        slab: *mut u32, slab_len: usize,
        n: usize, r: usize,
        matrix: *const u32, matrix_len: usize,
        hint: *const u32, hint_len: usize,
        interval: u32, positions: Positions,
        digest: *const [u8; 32],
        words: *const u32, words_len: usize,
        secret: *mut u32, secret_len: usize,
        error: *mut u32, error_len: usize,
        query: *mut u32, query_len: usize,
    ) -> Opened;
    pub fn ladletwig_process_response(
        table: Table,
        slab: *mut u32, slab_len: usize,
        ticket: u32,
        response: *const u32, response_len: usize,
        masks: *const u32, masks_len: usize,
        value: *mut u8, value_len: usize,
    ) -> Replied;
    pub fn ladletwig_discard_query(
        table: Table,
        slab: *mut u32, slab_len: usize,
        ticket: u32,
    ) -> Discarded;
    pub fn ladletwig_write_query_line(
        ticket: u32,
        words: *const u32, words_len: usize,
        out: *mut u8, out_len: usize,
    ) -> LineWritten;
    pub fn ladletwig_read_response_line(
        line: *const u8, line_len: usize,
        out: *mut u32, out_len: usize,
    ) -> LineRead;
}

#[cfg(test)]
mod tests {
    use super::*;
    use std::mem::{offset_of, size_of};

    /// The numbers are those that bindings/c/lookup.c holds the header to.
    #[test]
    fn the_answers_lie_as_the_header_has_them() {
        assert_eq!((size_of::<Positions>(), offset_of!(Positions, at)), (16, 0));
        assert_eq!((size_of::<Sampled>(), offset_of!(Sampled, read)), (16, 8));
        assert_eq!((size_of::<Parsed>(), offset_of!(Parsed, rows), offset_of!(Parsed, columns)), (24, 8, 16));
        assert_eq!((size_of::<Decoded>(), offset_of!(Decoded, length)), (16, 8));
        assert_eq!((size_of::<Made>(), offset_of!(Made, table)), (2336, 8));
        assert_eq!((size_of::<Opened>(), offset_of!(Opened, ticket)), (2344, 4));
        assert_eq!((offset_of!(Opened, read), offset_of!(Opened, table)), (8, 16));
        assert_eq!((size_of::<Replied>(), offset_of!(Replied, length), offset_of!(Replied, table)), (2344, 8, 16));
        assert_eq!((size_of::<Discarded>(), offset_of!(Discarded, table)), (2336, 8));
        assert_eq!((size_of::<LineWritten>(), offset_of!(LineWritten, length)), (16, 8));
        assert_eq!((size_of::<LineRead>(), offset_of!(LineRead, ticket), offset_of!(LineRead, columns)), (16, 4, 8));
    }
}
