//! Query lines written and response lines read, which only 01 has.

use crate::list::{Answer, By, Call, List};
use crate::random::Random;

pub fn write(list: &mut List, ticket: u32, words: &[u32], out: &[u8]) {
    let mut after = out.to_vec();
    let said = model::write_query_line(ticket, words, &mut after);
    let call = Call::new(15, "write line").plain("ticket", ticket).buffer("words", words).buffer("out", out);
    list.add(call, Answer::new(said.number).value(said.length).line(&after), By::Model);
}

pub fn read(list: &mut List, line: &[u8], out: &[u32]) {
    let mut after = out.to_vec();
    let said = model::read_response_line(line, &mut after);
    let call = Call::new(16, "read line").buffer("line", line).buffer("out", out);
    let answer = Answer::new(said.number).value(said.ticket).value(said.columns).buffer(&after);
    list.add(call, answer, By::Model);
}

/// A frame as a line, whatever its numbers are.
fn frame(kind: u8, ticket: u32, rows: u32, columns: u32, words: &[u32]) -> Vec<u8> {
    let header = [ticket, rows, columns];
    let numbers = header.iter().chain(words).flat_map(|word| word.to_le_bytes());
    let text: String = std::iter::once(kind).chain(numbers).map(|byte| format!("{byte:02x}")).collect();
    (text + "\n").into_bytes()
}

/// An honest response's line.
pub fn response(ticket: u32, words: &[u32]) -> Vec<u8> {
    frame(2, ticket, 1, words.len() as u32, words)
}

/// Every number of a frame wrong, one at a time.
fn malformed(list: &mut List, random: &mut Random) {
    let words = random.words(2);
    let frames = [
        frame(1, 7, 1, 2, &words),
        frame(2, 0, 1, 2, &words),
        frame(2, 7, 2, 1, &words),
        frame(2, 7, 1, 1, &words),
        frame(2, 7, 1, 3, &words),
        frame(2, 7, 1, 0, &[]),
        frame(2, 7, 1, 536870914, &words),
    ];
    for line in frames {
        read(list, &line, &random.words(2));
    }
}

/// A good line with one byte changed or at its ends, and none at all.
fn broken(list: &mut List, random: &mut Random) {
    let good = response(7, &[1, 1 << 31]);
    let last = good.len() - 1;
    for (at, byte) in [(0, b'1'), (12, b'g'), (13, b'/'), (20, b':'), (last, b'0')] {
        let mut line = good.clone();
        line[at] = byte;
        read(list, &line, &random.words(2));
    }
    let upper: Vec<u8> = response(7, &[0xabcd_ef01]).iter().map(u8::to_ascii_uppercase).collect();
    for line in [&good[..last], &[&good[..], b"\n"].concat(), &good[..26], b"", &upper] {
        read(list, line, &random.words(2));
    }
}

pub fn calls(list: &mut List, random: &mut Random) {
    // The line that 01 shows.
    read(list, b"020700000001000000020000000100000000000080\n", &[9; 3]);
    for ticket in [1, 0x0102_0304, u32::MAX] {
        let columns = random.size(1, 5);
        let words = random.words(columns);
        write(list, ticket, &words, &random.bytes(27 + 8 * columns + 2));
        read(list, &response(ticket, &words), &random.words(columns + 1));
        read(list, &response(ticket, &words), &random.words(columns - 1));
    }
    // 11 comes before 2.
    for (ticket, words, out) in [(0, 0, 0), (3, 0, 43), (3, 2, 42)] {
        write(list, ticket, &random.words(words), &random.bytes(out));
    }
    malformed(list, random);
    broken(list, random);
}
