//! The codec that stands in for the Rust's is ours, written from document 01; here it is held to 01's example and to
//! the proved library, so that a reply that differs can't be the stand-in's fault.

use chalametpir_common::error::ChalametPIRError;
use chalametpir_common::serialization::{decode_kv_from_row, encode_kv_as_row};

const DIGEST: [u8; 32] = [0xa5; 32];

#[test]
fn an_empty_value_has_the_marker_last() {
    let row = encode_kv_as_row(&DIGEST, &[], 8, 33);
    assert_eq!((row.len(), row[31], row[32]), (33, 0xa5, 129));
}

/// Values from none to the longest, ending in zeros and in markers, at each width and four numbers of columns.
#[test]
fn rows_are_those_of_the_library() {
    for b in 4..=14u32 {
        let least = 264usize.div_ceil(b as usize);
        for columns in least..least + 4 {
            let room = columns * b as usize / 8 - 33;
            for value in (0..=room).flat_map(|length| [vec![0; length], vec![0x81; length]]) {
                let row = encode_kv_as_row(&DIGEST, &value, b as usize, columns as u32);
                let mut ours = vec![7; columns];
                ladletwig::encode_kv_as_row(b, columns, &DIGEST, &value, &mut ours).unwrap();
                assert_eq!(row, ours);
                assert_eq!(decode_kv_from_row(&row, b as usize), Ok([&DIGEST[..], &value].concat()));
            }
        }
    }
}

#[test]
fn a_row_without_a_marker_is_refused_by_both() {
    let marker_too_early = encode_kv_as_row(&DIGEST, &[], 8, 33)[1..].iter().copied().chain([0]).collect();
    let last_is_not_a_marker = [&[1; 32][..], &[0x80]].concat();
    for row in [vec![0; 33], marker_too_early, last_is_not_a_marker] {
        assert_eq!(decode_kv_from_row(&row, 8), Err(ChalametPIRError::RowHasNoMarker));
        let answer = ladletwig::decode_kv_from_row(8, 33, &row, &mut [7; 32], &mut []);
        assert_eq!(answer, Err(ladletwig::Refusal::Marker));
    }
}
