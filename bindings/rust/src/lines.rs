//! The lines that go between terminal and host: lowercase hexadecimal, one frame a line, a line feed last.

use crate::raw;
use crate::refusal::{answer, Refusal};

/// Writes the query line of a ticket and answers its length, 27 + 8·`words` bytes.
///
/// Refusals in order: 11 (`ticket` is 0); 2 (`words` has none or more than 4,096, `out` too short).
///
/// After: `out` starts with the line and keeps the rest of what it held; on a refusal it keeps all.
pub fn write_query_line(ticket: u32, words: &[u32], out: &mut [u8]) -> Result<usize, Refusal> {
    // SAFETY: each pointer goes with the length of its own live slice (see `raw`).
    let written =
        unsafe { raw::ladletwig_write_query_line(ticket, words.as_ptr(), words.len(), out.as_mut_ptr(), out.len()) };
    answer(written.number).map(|()| written.length)
}

/// Reads a response line, its line feed included, and answers its ticket and how many words it carries.
///
/// Refusals in order: 11 (anything but exactly one whole response line with a ticket that isn't 0, one row and 1 to
/// 4,096 columns); 2 (`out` too short).
///
/// After: `out` starts with the words and keeps the rest of what it held; on a refusal it keeps all.
pub fn read_response_line(line: &[u8], out: &mut [u32]) -> Result<(u32, usize), Refusal> {
    // SAFETY: each pointer goes with the length of its own live slice (see `raw`).
    let read = unsafe { raw::ladletwig_read_response_line(line.as_ptr(), line.len(), out.as_mut_ptr(), out.len()) };
    answer(read.number).map(|()| (read.ticket, read.columns))
}
