//! The row codec, which only 01 has.

use crate::list::{Answer, By, Call, List};
use crate::random::Random;

pub fn encode(list: &mut List, b: u32, columns: usize, digest: &[u8; 32], value: &[u8], out: &[u32]) -> Vec<u32> {
    let mut after = out.to_vec();
    let number = model::encode_kv_as_row(b, columns, digest, value, &mut after);
    let call = Call::new(10, "encode").plain("b", b).plain("columns", columns);
    let call = call.buffer("digest", digest).buffer("value", value).buffer("out", out);
    list.add(call, Answer::new(number).buffer(&after), By::Model);
    after
}

fn decode(list: &mut List, b: u32, columns: usize, row: &[u32], digest: &[u8], value: &[u8]) {
    let (mut digest_after, mut value_after) = (digest.to_vec(), value.to_vec());
    let said = model::decode_kv_from_row(b, columns, row, &mut digest_after, &mut value_after);
    let call = Call::new(11, "decode").plain("b", b).plain("columns", columns);
    let call = call.buffer("row", row).buffer("digest", digest).buffer("value", value);
    let answer = Answer::new(said.number).value(said.length).buffer(&digest_after).buffer(&value_after);
    list.add(call, answer, By::Model);
}

/// A row written and read again, at the narrowest C of a width and some more.
fn there_and_back(list: &mut List, random: &mut Random, b: u32, more: usize) {
    let columns = 264_usize.div_ceil(b as usize) + more;
    let room = model::value_room(b, columns) as usize;
    let length = random.size(0, room);
    let (digest, value) = (random.digest(), random.bytes(length));
    let row = encode(list, b, columns, &digest, &value, &random.words(columns + 1));
    decode(list, b, columns, &row[..columns], &random.bytes(32), &random.bytes(room + 2));
}

/// A row whose bytes are these, read into sevens.
fn decode_bytes(list: &mut List, columns: usize, bytes: &[u8]) {
    decode(list, 8, columns, &model::row_of(8, columns, bytes), &[7; 32], &[7; 4]);
}

/// The marker where it may stand and where not; 17 comes before 13.
fn markers(list: &mut List, random: &mut Random) {
    let digest = random.digest();
    decode_bytes(list, 35, &[]);
    decode_bytes(list, 35, &[&digest[..31], &[0x81]].concat());
    decode_bytes(list, 35, &[&digest[..], &[0x81, 0x80]].concat());
    decode_bytes(list, 35, &[&digest[..], &[0x81, 0, 0x81]].concat());
    decode_bytes(list, 35, &[&digest[..], &[0, 0, 1]].concat());
    let mut row = model::row_of(8, 35, &digest);
    row[34] = 256;
    decode(list, 8, 35, &row, &[7; 33], &[7; 2]);
}

fn refused(list: &mut List, random: &mut Random) {
    let digest = random.digest();
    for (b, columns, value, out) in
        [(3, 88, 0, 88), (8, 32, 0, 33), (8, 513, 0, 33), (8, 33, 0, 32), (8, 33, 1, 33), (8, 35, 3, 35)]
    {
        encode(list, b, columns, &digest, &random.bytes(value), &vec![7; out]);
    }
    for (b, columns, row, digest, value) in
        [(15, 33, 33, 32, 30), (8, 32, 32, 32, 8), (8, 35, 36, 32, 2), (8, 35, 35, 31, 2), (8, 35, 35, 32, 1)]
    {
        decode(list, b, columns, &vec![1; row], &vec![7; digest], &vec![7; value]);
    }
}

pub fn calls(list: &mut List, random: &mut Random) {
    for b in [5, 8, 9, 11, 13] {
        let more = random.size(0, 3);
        there_and_back(list, random, b, more);
    }
    markers(list, random);
    refused(list, random);
}
