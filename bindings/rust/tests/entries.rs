//! The entries that a lookup doesn't pass through, and document 01's worked numbers, so that no argument can stand in
//! another's place unseen.

use ladletwig::{
    build_database, calculate_query_indicator, decode_kv_from_row, encode_kv_as_row, from_bytes, plain_product,
    read_response_line, rounded, row_vector_x_compressed_transposed_matrix, row_wise_compress, row_wise_decompress,
    sample_and_return_unread, sample_from_uniform_ternary_dist, to_bytes, transpose, write_query_line, Refusal,
};

const MINUS: u32 = u32::MAX;

#[test]
fn packing_and_unpacking() {
    for (b, elements, packed) in [
        (10, &[1, 2, 3, 4][..], &[3_147_777, 4][..]),
        (8, &[255, 256, 1], &[65_791]),
        (11, &[2047, 1], &[67_583]),
        (4, &[15, 1, 2, 3, 4], &[50_462_991, 4]),
        (9, &[511, 1, 0], &[1_535]),
    ] {
        let mut out = [9; 3];
        assert_eq!(row_wise_compress(b, 1, elements.len(), elements, &mut out), Ok(()));
        assert_eq!(out[..packed.len()], *packed);
        assert!(out[packed.len()..].iter().all(|word| *word == 9));
        let mut back = vec![9; elements.len()];
        assert_eq!(row_wise_decompress(b, 1, elements.len(), packed, &mut back), Ok(()));
        assert!(back.iter().zip(elements).all(|(found, put)| *found == put % (1 << b)));
    }
    assert_eq!(row_wise_compress(3, 0, 1, &[], &mut []), Err(Refusal::Width));
    assert_eq!(row_wise_compress(4, 0, 1, &[], &mut []), Err(Refusal::Shape));
    assert_eq!(row_wise_decompress(10, 2, 4, &[1; 4], &mut [0; 7]), Err(Refusal::Shape));
}

#[test]
fn products() {
    let mut out = [7; 2];
    let vector = [2, 3, MINUS, 1];
    assert_eq!(row_vector_x_compressed_transposed_matrix(10, &vector, 1, 4, &[3_147_777, 4], &mut out), Ok(()));
    assert_eq!(out, [9, 7], "2 + 6 - 3 + 4, and the rest is kept");
    let mut out = [0; 3];
    assert_eq!(plain_product(1, 2, 3, &[MINUS, 2], &[1, 2, 3, 4, 5, 6], &mut out), Ok(()));
    assert_eq!(out, [7, 8, 9]);
    assert_eq!(plain_product(1, 2, 3, &[1, 2, 3], &[1, 2, 3, 4, 5, 6], &mut out), Err(Refusal::Shape));
    let mut out = [0; 6];
    assert_eq!(transpose(2, 3, &[1, 2, 3, 4, 5, 6], &mut out), Ok(()));
    assert_eq!(out, [1, 4, 2, 5, 3, 6]);
    assert_eq!(transpose(0, 4097, &[], &mut out), Err(Refusal::Shape));
}

#[test]
fn sampling() {
    let words = [0, 5, 6, 16, 10, 11, 15, 77];
    let mut out = [9; 6];
    assert_eq!(sample_from_uniform_ternary_dist(5, &words, &mut out), Ok(7));
    assert_eq!(out, [0, 0, 1, 1, MINUS, MINUS]);
    out = [9; 6];
    assert_eq!(sample_and_return_unread(5, &words, &mut out), [77]);
    assert_eq!(out, [0, 0, 1, 1, MINUS, MINUS]);
    assert_eq!(sample_from_uniform_ternary_dist(5, &words, &mut []), Ok(0));
    assert_eq!(sample_and_return_unread(5, &[], &mut []), []);
    let mut out = [9; 8];
    assert_eq!(sample_from_uniform_ternary_dist(5, &words, &mut out), Err(Refusal::WordsEnd));
    assert_eq!(sample_and_return_unread(5, &words, &mut out), words);
    assert_eq!(sample_from_uniform_ternary_dist(0, &words, &mut out), Err(Refusal::Interval));
    assert_eq!(sample_from_uniform_ternary_dist(0, &words, &mut [0; 4097]), Err(Refusal::Shape));
    assert_eq!(out, [9; 8]);
}

#[test]
fn matrix_bytes() {
    let mut bytes = [9; 17];
    assert_eq!(to_bytes(2, 1, &[1, 1 << 31], &mut bytes), Ok(()));
    assert_eq!(bytes, [2, 0, 0, 0, 1, 0, 0, 0, 1, 0, 0, 0, 0, 0, 0, 128, 9]);
    let mut words = [9; 3];
    assert_eq!(from_bytes(&bytes[..16], &mut words), Ok((2, 1)));
    assert_eq!(words, [1, 1 << 31, 9]);
    assert_eq!(from_bytes(&bytes, &mut words), Err(Refusal::Malformed));
    assert_eq!(from_bytes(&bytes[..16], &mut words[..1]), Err(Refusal::Shape));
    assert_eq!(from_bytes(&[], &mut []), Err(Refusal::Malformed));
    assert_eq!(from_bytes(&[0; 8], &mut []), Err(Refusal::Shape));
    assert_eq!(to_bytes(2, 1, &[1, 2], &mut bytes[..15]), Err(Refusal::Shape));
}

#[test]
fn rows() {
    let digest = [7; 32];
    let mut row = [1; 34];
    assert_eq!(encode_kv_as_row(8, 33, &digest, &[], &mut row), Ok(()));
    assert_eq!((row[0], row[31], row[32], row[33]), (7, 7, 129, 1));
    assert_eq!(encode_kv_as_row(8, 33, &digest, &[1], &mut row), Err(Refusal::TooLong));
    assert_eq!(encode_kv_as_row(8, 32, &digest, &[1], &mut row), Err(Refusal::Shape));
    assert_eq!(encode_kv_as_row(8, 34, &digest, &[5], &mut row), Ok(()));
    let (mut found, mut value) = ([0; 32], [9; 2]);
    assert_eq!(decode_kv_from_row(8, 34, &row, &mut found, &mut value), Ok(1));
    assert_eq!((found, value), (digest, [5, 9]));
    assert_eq!(decode_kv_from_row(8, 34, &row, &mut found[1..], &mut value), Err(Refusal::Shape));
    assert_eq!(decode_kv_from_row(8, 34, &row, &mut found, &mut []), Err(Refusal::Shape));
    row[3] = 256;
    assert_eq!(decode_kv_from_row(8, 34, &row, &mut found, &mut value), Err(Refusal::Element));
    assert_eq!(decode_kv_from_row(8, 34, &[0; 34], &mut found, &mut value), Err(Refusal::Marker));
}

#[test]
fn databases() {
    let mut database = [9; 6];
    // One key, row [1], mask [3], written into row 3 of five: the other rows are zero, so it is row less masks.
    assert_eq!(build_database(4, 5, 1, 1, &[1], &[3], &[0, 1, 3, 4], &[2], &mut database), Ok(()));
    assert_eq!(database, [0, 0, 0, 14, 0, 9]);
    assert_eq!(build_database(4, 5, 1, 0, &[], &[], &[], &[], &mut database), Ok(()));
    assert_eq!(database, [0, 0, 0, 0, 0, 9]);
    let mut build = |row, position, target| {
        build_database(4, 5, 1, 1, &[row], &[3], &[0, 1, 3, position], &[target], &mut database)
    };
    assert_eq!(build(16, 4, 4), Err(Refusal::Element));
    assert_eq!(build(15, 4, 4), Err(Refusal::Placement));
    assert_eq!(build(15, 5, 3), Err(Refusal::Placement));
    assert_eq!(build(15, 3, 3), Err(Refusal::Placement));
    let twice = build_database(4, 5, 1, 2, &[1; 2], &[1; 2], &[0, 1, 2, 3, 4, 3, 2, 1], &[3, 3], &mut database);
    assert_eq!(twice, Err(Refusal::Placement), "row 1 belongs to the key before");
}

#[test]
fn roundings() {
    for (u, found) in [(2_097_152, 0), (2_097_153, 1), (4_294_967_295, 0), (4_292_870_144, 1023)] {
        assert_eq!(rounded(10, u), found);
    }
    assert_eq!([0, 4, 10, 14, 32, 33].map(calculate_query_indicator), [0, 1 << 28, 1 << 22, 1 << 18, 1, 0]);
}

#[test]
fn lines() {
    let line = b"020700000001000000020000000100000000000080\n";
    let mut words = [9; 3];
    assert_eq!(read_response_line(line, &mut words), Ok((7, 2)));
    assert_eq!(words, [1, 1 << 31, 9]);
    assert_eq!(read_response_line(line, &mut words[..1]), Err(Refusal::Shape));
    let mut out = [b'.'; 44];
    assert_eq!(write_query_line(7, &[1, 1 << 31], &mut out), Ok(43));
    assert_eq!((&out[..2], &out[2..43], out[43]), (&b"01"[..], &line[2..], b'.'));
    assert_eq!(read_response_line(&out[..43], &mut words), Err(Refusal::Malformed));
    assert_eq!(write_query_line(0, &[], &mut out), Err(Refusal::Malformed));
    assert_eq!(write_query_line(7, &[], &mut out), Err(Refusal::Shape));
}
