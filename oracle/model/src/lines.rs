//! 01, "Lines": "One frame a line, lowercase hexadecimal, LF last."

use crate::bytes::{elements, has_stated_length, matrix_bytes, stated_dimensions, word_at};
use crate::refusal::{outside, Tests, ROWS};

/// What the line writer answers: the refusal number and the line's length, LF included.
#[derive(Clone, Debug, PartialEq, Eq)]
pub struct LineWritten {
    pub number: u32,
    pub length: usize,
}

/// What the line reader answers: the refusal number, the ticket and the number of entries.
#[derive(Clone, Debug, PartialEq, Eq)]
pub struct LineRead {
    pub number: u32,
    pub ticket: u32,
    pub columns: usize,
}

/// "Byte 01 for a query, 02 for a response".
const QUERY: u8 = 1;
const RESPONSE: u8 = 2;
/// The matrix bytes come after this byte and the ticket.
const MATRIX: usize = 5;
const DIGITS: &[u8; 16] = b"0123456789abcdef";

/// The line of a frame: two digits for each byte, and LF.
fn line_of(frame: &[u8]) -> Vec<u8> {
    let digit = |value: u8| DIGITS[usize::from(value)];
    let digits = frame.iter().flat_map(|&byte| [digit(byte / 16), digit(byte % 16)]);
    digits.chain([b'\n']).collect()
}

/// The value of a lowercase hexadecimal digit.
fn digit_value(digit: u8) -> Option<u8> {
    DIGITS.iter().position(|&known| known == digit).map(|value| value as u8)
}

/// The frame of a line; nothing if the line isn't pairs of lowercase hexadecimal digits and LF.
fn frame_of(line: &[u8]) -> Option<Vec<u8>> {
    let digits = line.strip_suffix(b"\n")?;
    let byte = |pair: &[u8]| match pair {
        [high, low] => Some(16 * digit_value(*high)? + digit_value(*low)?),
        _ => None,
    };
    digits.chunks(2).map(byte).collect()
}

/// "Line reader, line writer, matrix-bytes reader: 11, 2." 11 here: "a line writer given ticket 0".
pub fn write_query_line_tests<'a>(ticket: u32, words: &'a [u32], out: &'a [u8]) -> Tests<'a> {
    Tests::none().then(11, move || ticket == 0).then(2, move || {
        let frame = MATRIX as u128 + 8 + 4 * words.len() as u128;
        outside(words.len(), ROWS) || (out.len() as u128) < 2 * frame + 1
    })
}

/// "Byte 01 for a query [...]; ticket, u32 little-endian, not 0; matrix bytes with rows 1, columns 1 to 4,096."
pub fn write_query_line(ticket: u32, words: &[u32], out: &mut [u8]) -> LineWritten {
    let number = write_query_line_tests(ticket, words, out).first();
    if number != 0 {
        return LineWritten { number, length: 0 };
    }
    let frame = [&[QUERY][..], &ticket.to_le_bytes(), &matrix_bytes(1, words.len(), words)].concat();
    let line = line_of(&frame);
    out[..line.len()].copy_from_slice(&line);
    LineWritten { number, length: line.len() }
}

/// The ticket and the columns of a frame; nothing if it is too short to have them.
fn stated(frame: &[u8]) -> Option<(u32, usize)> {
    let (_, columns) = stated_dimensions(frame.get(MATRIX..)?)?;
    Some((word_at(frame, 1)?, columns))
}

/// A response: byte 02, ticket not 0, matrix bytes of their stated length with rows 1 and columns 1 to 4,096.
fn is_response(frame: &[u8]) -> bool {
    let Some((ticket, columns)) = stated(frame) else { return false };
    let matrix = &frame[MATRIX..];
    frame[0] == RESPONSE
        && ticket != 0
        && stated_dimensions(matrix) == Some((1, columns))
        && !outside(columns, ROWS)
        && has_stated_length(matrix)
}

/// "Line reader, line writer, matrix-bytes reader: 11, 2." 11: "any other line, whole length included". 2: the output.
pub fn read_response_line_tests<'a>(line: &'a [u8], out: &'a [u32]) -> Tests<'a> {
    Tests::none().then(11, move || !frame_of(line).is_some_and(|frame| is_response(&frame))).then(2, move || {
        let columns = frame_of(line).and_then(|frame| stated(&frame)).map(|(_, columns)| columns);
        columns.is_some_and(|columns| out.len() < columns)
    })
}

/// Reads the entries to the start of the output and answers ticket and columns.
pub fn read_response_line(line: &[u8], out: &mut [u32]) -> LineRead {
    let number = read_response_line_tests(line, out).first();
    if number != 0 {
        return LineRead { number, ticket: 0, columns: 0 };
    }
    let frame = frame_of(line).expect("11 does not hold");
    let (ticket, columns) = stated(&frame).expect("11 does not hold");
    for (to, entry) in out.iter_mut().zip(elements(&frame[MATRIX..])) {
        *to = entry;
    }
    LineRead { number, ticket, columns }
}
