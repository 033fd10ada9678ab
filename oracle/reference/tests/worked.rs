//! Holds the Rust to document 01's worked numbers (1) to (12), so that the comparison starts from 01 itself.

use chalametpir_common::serialization::encode_kv_as_row;
use reference::{
    calculate_query_indicator, row_vector_x_compressed_transposed_matrix, row_wise_compress, row_wise_decompress,
    sample_from_uniform_ternary_dist, Client, OpenError, ReplyError,
};

const MINUS_ONE: u32 = u32::MAX;

#[test]
fn packing_1_to_5() {
    let cases: [(u32, &[u32], &[u32]); 5] = [
        (10, &[1, 2, 3, 4], &[3147777, 4]),
        (8, &[255, 256, 1], &[65791]),
        (11, &[2047, 1], &[67583]),
        (4, &[15, 1, 2, 3, 4], &[50462991, 4]),
        (9, &[511, 1, 0], &[1535]),
    ];
    for (b, elements, packed) in cases {
        assert_eq!(row_wise_compress(b, 1, elements.len(), elements), packed);
        let cut: Vec<u32> = elements.iter().map(|element| element % (1 << b)).collect();
        assert_eq!(row_wise_decompress(b, 1, elements.len(), packed), cut);
    }
}

#[test]
fn packed_product_6() {
    let packed = [3147777, 4];
    assert_eq!(row_vector_x_compressed_transposed_matrix(10, &[2, 3, MINUS_ONE, 1], 1, 4, &packed), [9]);
}

#[test]
fn sampler_7() {
    let words = [0, 5, 6, 16, 10, 11, 15];
    let sampled = vec![0, 0, 1, 1, MINUS_ONE, MINUS_ONE];
    assert_eq!(sample_from_uniform_ternary_dist(5, &words, 6), Some((sampled.clone(), 7)));
    assert_eq!(sample_from_uniform_ternary_dist(5, &words[..6], 6), None);
    let longer = [&words[..], &[0, 16]].concat();
    assert_eq!(sample_from_uniform_ternary_dist(5, &longer, 6), Some((sampled, 7)), "words after the last are left");
}

/// The Rust rounds inside a reply. With a secret of zeros u is the response's word, and a reply whose masks make up
/// for the expected element comes through; the digest's first byte is 0, so that one off is seen there alone.
fn rounds_to(u: u32, element: u32) -> bool {
    const B: u32 = 10;
    const COLUMNS: usize = 27;
    let digest = [0; 32];
    let mut masks = encode_kv_as_row(&digest, &[], B as usize, COLUMNS as u32);
    masks[0] = masks[0].wrapping_sub(element);
    let mut response = [0; COLUMNS];
    response[0] = u;
    let mut client = Client::new(B, COLUMNS, 1, 4, &[0; 4], &[0; COLUMNS], 5);
    client.open(&digest, [0, 1, 2, 3], &[0; 5]).expect("nothing stands against this open");
    match client.reply(&digest, &masks, &response) {
        Ok(value) => value.is_empty(),
        Err(refusal) => {
            assert_eq!(refusal, ReplyError::Digest);
            false
        }
    }
}

#[test]
fn rounding_8_to_11() {
    for (u, element) in [(2097152, 0), (2097153, 1), (4294967295, 0), (4292870144, 1023)] {
        assert!(rounds_to(u, element), "{u} rounds to {element}");
        assert!(!rounds_to(u, element + 1), "{u} rounds to {element} and to nothing else");
    }
}

#[test]
fn wrapping_12() {
    assert_eq!(calculate_query_indicator(10), 4194304);
    let digest = [3; 32];
    let opened = |entry: u32| {
        // s is 1 and e is 0, so the public matrix is the query before Δ.
        let mut client = Client::new(10, 27, 1, 4, &[0, 0, entry, 0], &[0; 27], 5);
        (client.open(&digest, [0, 1, 2, 3], &[6, 0, 16, 0, 0, 0]), client.pending())
    };
    assert_eq!(opened(4290772992), (Err(OpenError::Wraps { read: 6 }), 0));
    let query = vec![4194304, 4194304, 4294967295, 4194304];
    assert_eq!(opened(4290772991), (Ok((query, 6)), 1));
}
