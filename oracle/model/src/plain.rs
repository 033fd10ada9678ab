//! 01, "Packed product": "Plain product and transpose (added) are the ordinary ones, modulo 2^32."

use crate::refusal::{differs, modulo, outside, too_short, Tests, ROWS};

/// Entry (i, j) of the product of a matrix of m columns and a matrix of m rows and c columns, modulo 2^32.
pub(crate) fn product_entry(m: usize, c: usize, left: &[u32], right: &[u32], i: usize, j: usize) -> u32 {
    let sum = (0..m).map(|k| i128::from(left[i * m + k]) * i128::from(right[k * c + j])).sum();
    modulo(32, sum)
}

/// "Plain product, transpose: 2."
pub fn plain_product_tests<'a>(
    r: usize,
    m: usize,
    c: usize,
    left: &'a [u32],
    right: &'a [u32],
    out: &'a [u32],
) -> Tests<'a> {
    Tests::none().then(2, move || {
        outside(r, ROWS)
            || outside(m, ROWS)
            || outside(c, ROWS)
            || differs(left.len(), r, m)
            || differs(right.len(), m, c)
            || too_short(out.len(), r, c)
    })
}

/// The r×c product of left (r×m) and right (m×c).
pub fn plain_product(r: usize, m: usize, c: usize, left: &[u32], right: &[u32], out: &mut [u32]) -> u32 {
    let number = plain_product_tests(r, m, c, left, right, out).first();
    if number != 0 {
        return number;
    }
    for i in 0..r {
        for j in 0..c {
            out[i * c + j] = product_entry(m, c, left, right, i, j);
        }
    }
    0
}

/// "Plain product, transpose: 2."
pub fn transpose_tests<'a>(r: usize, c: usize, words: &'a [u32], out: &'a [u32]) -> Tests<'a> {
    Tests::none().then(2, move || {
        outside(r, ROWS) || outside(c, ROWS) || differs(words.len(), r, c) || too_short(out.len(), c, r)
    })
}

/// The c×r transpose of an r×c matrix.
pub fn transpose(r: usize, c: usize, words: &[u32], out: &mut [u32]) -> u32 {
    let number = transpose_tests(r, c, words, out).first();
    if number != 0 {
        return number;
    }
    for i in 0..r {
        for j in 0..c {
            out[j * r + i] = words[i * c + j];
        }
    }
    0
}
