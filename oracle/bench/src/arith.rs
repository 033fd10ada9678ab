//! Packing, products, sampler, matrix bytes and the row codec.

use chalametpir_common::lent;
use chalametpir_common::matrix::Matrix;

use crate::clock::median;
use crate::inputs::{aligned, Words, C, INTERVAL, N, R};
use crate::table::Row;

fn matrix(rows: usize, columns: usize, words: &[u32]) -> Matrix {
    Matrix::from_values(rows as u32, columns as u32, words.to_vec()).unwrap()
}

/// The packed matrix is the database transposed: C rows of R elements. The Rust consumes what it packs or unpacks, so
/// each call gets a copy, made outside the time.
pub fn packing(b: u32) -> Vec<Row> {
    let elements = Words(1).elements(b, C * R);
    let rust_elements = matrix(C, R, &elements);
    let rust_packed = rust_elements.clone().row_wise_compress(b as usize).unwrap();
    let mut packed = vec![0; rust_packed.num_elems()];
    let pack = |out: &mut [u32]| ladletwig::row_wise_compress(b, C, R, &elements, out);
    let ours = median(|| (), |()| pack(&mut packed));
    assert_eq!(packed, rust_packed.words());
    let rust = median(|| rust_elements.clone(), |matrix| matrix.row_wise_compress(b as usize));
    let packing = Row::both("row_wise_compress", b, ours, rust);

    let mut out = vec![0; C * R];
    let ours = median(|| (), |()| ladletwig::row_wise_decompress(b, C, R, &packed, &mut out));
    assert_eq!(out, elements);
    assert_eq!(rust_packed.clone().row_wise_decompress(b as usize, R as u32).unwrap().words(), elements);
    let rust = median(|| rust_packed.clone(), |matrix| matrix.row_wise_decompress(b as usize, R as u32));
    let unpacking = Row::both("row_wise_decompress", b, ours, rust);
    vec![packing, unpacking, packed_product(b, &packed, &rust_packed)]
}

fn packed_product(b: u32, packed: &[u32], rust_packed: &Matrix) -> Row {
    const ENTRY: &str = "row_vector_x_compressed_transposed_matrix";
    let vector = Words(2).words(R);
    let rust_vector = matrix(1, R, &vector);
    let mut out = vec![0; C];
    let multiply =
        |out: &mut [u32]| ladletwig::row_vector_x_compressed_transposed_matrix(b, &vector, C, R, packed, out);
    let ours = median(|| (), |()| multiply(&mut out));
    let rust_multiply = || rust_vector.row_vector_x_compressed_transposed_matrix(rust_packed, R as u32, b as usize);
    assert_eq!(out, rust_multiply().unwrap().words());
    Row::both(ENTRY, b, ours, median(|| (), |()| rust_multiply()))
}

/// The product is that of a query: a secret of N words times the public matrix.
pub fn plain() -> Vec<Row> {
    let (left, right) = (Words(3).words(N), Words(4).words(N * R));
    let (rust_left, rust_right) = (matrix(1, N, &left), matrix(N, R, &right));
    let mut out = vec![0; R];
    let ours = median(|| (), |()| ladletwig::plain_product(1, N, R, &left, &right, &mut out));
    assert_eq!(out, (&rust_left * &rust_right).unwrap().words());
    let rust = median(|| (), |()| &rust_left * &rust_right);
    let product = Row::both("plain_product, 1 x n times n x R", None, ours, rust);

    let words = Words(5).words(R * C);
    let rust_words = matrix(R, C, &words);
    let mut out = vec![0; R * C];
    let ours = median(|| (), |()| ladletwig::transpose(R, C, &words, &mut out));
    assert_eq!(out, rust_words.transpose().words());
    let rust = median(|| (), |()| rust_words.transpose());
    vec![product, Row::both("transpose, R x C", None, ours, rust)]
}

/// A sample of R words. The Rust's random words are lent outside the time; reading one stands in for drawing it.
pub fn sampler() -> Vec<Row> {
    let words = Words(6).words(2 * R);
    let mut out = vec![0; R];
    let ours = median(|| (), |()| ladletwig::sample_from_uniform_ternary_dist(INTERVAL, &words, &mut out));
    lent::lend_interval(INTERVAL);
    rand::lend(&words);
    let rust_sample = || Matrix::sample_from_uniform_ternary_dist(1, R as u32).unwrap();
    assert_eq!(out, rust_sample().words());
    let rust = median(rand::rewind, |()| rust_sample());
    let sister = median(|| (), |()| ladletwig::sample_and_return_unread(INTERVAL, &words, &mut out).len());
    vec![
        Row::both("sample_from_uniform_ternary_dist, R", None, ours, rust),
        Row::alone("sample_and_return_unread, R", None, sister),
    ]
}

/// The bytes of a hint, which a client reads when it is set up.
pub fn matrix_bytes() -> Vec<Row> {
    let words = Words(7).words(N * C);
    let rust_words = matrix(N, C, &words);
    let mut bytes = vec![0; 8 + 4 * N * C];
    let ours = median(|| (), |()| ladletwig::to_bytes(N, C, &words, &mut bytes));
    assert_eq!(bytes, rust_words.to_bytes());
    let rust = median(|| (), |()| rust_words.to_bytes());
    let writer = Row::both("to_bytes, n x C", None, ours, rust);

    let mut out = vec![0; N * C];
    let ours = median(|| (), |()| ladletwig::from_bytes(&bytes, &mut out));
    assert_eq!(out, words);
    let bytes = aligned(bytes);
    assert_eq!(Matrix::from_bytes(&bytes).unwrap().words(), words);
    let rust = median(|| (), |()| Matrix::from_bytes(&bytes));
    vec![writer, Row::both("from_bytes, n x C", None, ours, rust)]
}

/// A row with the longest value it can hold.
pub fn codec(b: u32) -> Vec<Row> {
    let value: Vec<u8> = (0..C * b as usize / 8 - 33).map(|i| i as u8).collect();
    let mut row = vec![0; C];
    let write = median(|| (), |()| ladletwig::encode_kv_as_row(b, C, &[3; 32], &value, &mut row));
    let (mut digest, mut read) = ([0; 32], vec![0; value.len()]);
    let reader = median(|| (), |()| ladletwig::decode_kv_from_row(b, C, &row, &mut digest, &mut read));
    assert_eq!((digest, read), ([3; 32], value));
    vec![Row::alone("encode_kv_as_row", b, write), Row::alone("decode_kv_from_row", b, reader)]
}
