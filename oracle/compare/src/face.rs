//! The proved library, through the safe crate, with the model's types. Beside a refusal the safe crate shows no values,
//! and 01 says that they are zero; so they are then taken from the C face: the call is made again on copies of what was
//! lent.

use ladletwig::{raw, Refusal};
use model::{Decoded, LineRead, LineWritten, Made, Opened, Parsed, Replied, Sampled, Table};

fn number(answer: Result<(), Refusal>) -> u32 {
    answer.map_or_else(Refusal::number, |()| 0)
}

/// No number of 01: the answer where the safe crate and the C face under it differ on one input, so that it shows.
const DISAGREE: u32 = 1000;

fn agreed(refusal: Refusal, raw: u32) -> u32 {
    if refusal.number() == raw {
        raw
    } else {
        DISAGREE
    }
}

fn theirs(table: &Table) -> ladletwig::Table {
    let Table { b, columns, next, numbers, digests } = table.clone();
    ladletwig::Table { b, columns, next, numbers, digests }
}

fn ours(table: ladletwig::Table) -> Table {
    let ladletwig::Table { b, columns, next, numbers, digests } = table;
    Table { b, columns, next, numbers, digests }
}

pub fn row_wise_compress(b: u32, rows: usize, k: usize, words: &[u32], out: &mut [u32]) -> u32 {
    number(ladletwig::row_wise_compress(b, rows, k, words, out))
}

pub fn row_wise_decompress(b: u32, rows: usize, k: usize, words: &[u32], out: &mut [u32]) -> u32 {
    number(ladletwig::row_wise_decompress(b, rows, k, words, out))
}

pub fn row_vector_x_compressed_transposed_matrix(
    b: u32,
    vector: &[u32],
    rows: usize,
    k: usize,
    words: &[u32],
    out: &mut [u32],
) -> u32 {
    number(ladletwig::row_vector_x_compressed_transposed_matrix(b, vector, rows, k, words, out))
}

pub fn plain_product(r: usize, m: usize, c: usize, left: &[u32], right: &[u32], out: &mut [u32]) -> u32 {
    number(ladletwig::plain_product(r, m, c, left, right, out))
}

pub fn transpose(r: usize, c: usize, words: &[u32], out: &mut [u32]) -> u32 {
    number(ladletwig::transpose(r, c, words, out))
}

pub fn sample_from_uniform_ternary_dist(interval: u32, words: &[u32], out: &mut [u32]) -> Sampled {
    let mut copy = out.to_vec();
    match ladletwig::sample_from_uniform_ternary_dist(interval, words, out) {
        Ok(read) => Sampled { number: 0, read },
        Err(refusal) => {
            // SAFETY: each pointer goes with the length of its own live slice.
            let again = unsafe {
                raw::ladletwig_sample_from_uniform_ternary_dist(
                    interval,
                    words.as_ptr(),
                    words.len(),
                    copy.as_mut_ptr(),
                    copy.len(),
                )
            };
            Sampled { number: agreed(refusal, again.number), read: again.read }
        }
    }
}

pub fn sample_and_return_unread<'w>(interval: u32, words: &'w [u32], out: &mut [u32]) -> &'w [u32] {
    ladletwig::sample_and_return_unread(interval, words, out)
}

pub fn to_bytes(rows: usize, columns: usize, words: &[u32], out: &mut [u8]) -> u32 {
    number(ladletwig::to_bytes(rows, columns, words, out))
}

pub fn from_bytes(bytes: &[u8], out: &mut [u32]) -> Parsed {
    let mut copy = out.to_vec();
    match ladletwig::from_bytes(bytes, out) {
        Ok((rows, columns)) => Parsed { number: 0, rows, columns },
        Err(refusal) => {
            // SAFETY: each pointer goes with the length of its own live slice.
            let again =
                unsafe { raw::ladletwig_from_bytes(bytes.as_ptr(), bytes.len(), copy.as_mut_ptr(), copy.len()) };
            Parsed { number: agreed(refusal, again.number), rows: again.rows, columns: again.columns }
        }
    }
}

pub fn encode_kv_as_row(b: u32, columns: usize, digest: &[u8; 32], value: &[u8], out: &mut [u32]) -> u32 {
    number(ladletwig::encode_kv_as_row(b, columns, digest, value, out))
}

pub fn decode_kv_from_row(b: u32, columns: usize, row: &[u32], digest: &mut [u8], value: &mut [u8]) -> Decoded {
    let (mut digest_copy, mut value_copy) = (digest.to_vec(), value.to_vec());
    match ladletwig::decode_kv_from_row(b, columns, row, digest, value) {
        Ok(length) => Decoded { number: 0, length },
        Err(refusal) => {
            // SAFETY: each pointer goes with the length of its own live slice.
            let again = unsafe {
                raw::ladletwig_decode_kv_from_row(
                    b,
                    columns,
                    row.as_ptr(),
                    row.len(),
                    digest_copy.as_mut_ptr(),
                    digest_copy.len(),
                    value_copy.as_mut_ptr(),
                    value_copy.len(),
                )
            };
            Decoded { number: agreed(refusal, again.number), length: again.length }
        }
    }
}

#[allow(clippy::too_many_arguments)] // the library's own list
pub fn build_database(
    b: u32,
    r: usize,
    columns: usize,
    count: usize,
    rows: &[u32],
    masks: &[u32],
    positions: &[u32],
    targets: &[u32],
    database: &mut [u32],
) -> u32 {
    number(ladletwig::build_database(b, r, columns, count, rows, masks, positions, targets, database))
}

pub fn calculate_query_indicator(b: u32) -> u32 {
    ladletwig::calculate_query_indicator(b)
}

pub fn rounded(b: u32, u: u32) -> u32 {
    ladletwig::rounded(b, u)
}

pub fn fresh(b: u32, columns: usize) -> Made {
    match ladletwig::Table::fresh(b, columns) {
        Ok(table) => Made { number: 0, table: ours(table) },
        Err(refusal) => {
            // SAFETY: only numbers cross.
            let again = unsafe { raw::ladletwig_fresh(b, columns) };
            Made { number: agreed(refusal, again.number), table: ours(again.table) }
        }
    }
}

pub fn is_malformed(table: &Table) -> bool {
    theirs(table).is_malformed()
}

#[allow(clippy::too_many_arguments)]
pub fn query_for_4_wise_xor_filter(
    table: &mut Table,
    slab: &mut [u32],
    n: usize,
    r: usize,
    matrix: &[u32],
    hint: &[u32],
    interval: u32,
    positions: [u32; 4],
    digest: &[u8; 32],
    words: &[u32],
    secret: &mut [u32],
    error: &mut [u32],
    query: &mut [u32],
) -> Opened {
    let mut lent = theirs(table);
    let before = lent.clone();
    let mut copies = [slab.to_vec(), secret.to_vec(), error.to_vec(), query.to_vec()];
    let answer = lent.query_for_4_wise_xor_filter(
        slab, n, r, matrix, hint, interval, positions, digest, words, secret, error, query,
    );
    *table = ours(lent);
    let unopened = match answer {
        Ok(ticket) => return Opened { number: 0, ticket: ticket.number, read: ticket.read },
        Err(unopened) => unopened,
    };
    let again = open_again(before, &mut copies, n, r, matrix, hint, interval, positions, digest, words);
    let same = unopened.read == again.read && *table == ours(again.table);
    let number = if same { agreed(unopened.refusal, again.number) } else { DISAGREE };
    Opened { number, ticket: again.ticket, read: again.read }
}

/// An open through the C face, on copies of slab, secret, error and query.
#[allow(clippy::too_many_arguments)]
fn open_again(
    table: ladletwig::Table,
    copies: &mut [Vec<u32>; 4],
    n: usize,
    r: usize,
    matrix: &[u32],
    hint: &[u32],
    interval: u32,
    positions: [u32; 4],
    digest: &[u8; 32],
    words: &[u32],
) -> raw::Opened {
    let [slab, secret, error, query] = copies;
    // SAFETY: the digest is a live array; each other pointer goes with the length of its own live slice.
    unsafe {
        raw::ladletwig_query_for_4_wise_xor_filter(
            table,
            slab.as_mut_ptr(),
            slab.len(),
            n,
            r,
            matrix.as_ptr(),
            matrix.len(),
            hint.as_ptr(),
            hint.len(),
            interval,
            raw::Positions { at: positions },
            digest,
            words.as_ptr(),
            words.len(),
            secret.as_mut_ptr(),
            secret.len(),
            error.as_mut_ptr(),
            error.len(),
            query.as_mut_ptr(),
            query.len(),
        )
    }
}

pub fn process_response(
    table: &mut Table,
    slab: &mut [u32],
    ticket: u32,
    response: &[u32],
    masks: &[u32],
    value: &mut [u8],
) -> Replied {
    let mut lent = theirs(table);
    let before = lent.clone();
    let (mut slab_copy, mut value_copy) = (slab.to_vec(), value.to_vec());
    let answer = lent.process_response(slab, ticket, response, masks, value);
    *table = ours(lent);
    let refusal = match answer {
        Ok(length) => return Replied { number: 0, length },
        Err(refusal) => refusal,
    };
    // SAFETY: each pointer goes with the length of its own live slice.
    let again = unsafe {
        raw::ladletwig_process_response(
            before,
            slab_copy.as_mut_ptr(),
            slab_copy.len(),
            ticket,
            response.as_ptr(),
            response.len(),
            masks.as_ptr(),
            masks.len(),
            value_copy.as_mut_ptr(),
            value_copy.len(),
        )
    };
    let number = if *table == ours(again.table) { agreed(refusal, again.number) } else { DISAGREE };
    Replied { number, length: again.length }
}

pub fn discard_query(table: &mut Table, slab: &mut [u32], ticket: u32) -> u32 {
    let mut lent = theirs(table);
    let answer = lent.discard_query(slab, ticket);
    *table = ours(lent);
    number(answer)
}

pub fn write_query_line(ticket: u32, words: &[u32], out: &mut [u8]) -> LineWritten {
    let mut copy = out.to_vec();
    match ladletwig::write_query_line(ticket, words, out) {
        Ok(length) => LineWritten { number: 0, length },
        Err(refusal) => {
            // SAFETY: each pointer goes with the length of its own live slice.
            let again = unsafe {
                raw::ladletwig_write_query_line(ticket, words.as_ptr(), words.len(), copy.as_mut_ptr(), copy.len())
            };
            LineWritten { number: agreed(refusal, again.number), length: again.length }
        }
    }
}

pub fn read_response_line(line: &[u8], out: &mut [u32]) -> LineRead {
    let mut copy = out.to_vec();
    match ladletwig::read_response_line(line, out) {
        Ok((ticket, columns)) => LineRead { number: 0, ticket, columns },
        Err(refusal) => {
            // SAFETY: each pointer goes with the length of its own live slice.
            let again =
                unsafe { raw::ladletwig_read_response_line(line.as_ptr(), line.len(), copy.as_mut_ptr(), copy.len()) };
            LineRead { number: agreed(refusal, again.number), ticket: again.ticket, columns: again.columns }
        }
    }
}
