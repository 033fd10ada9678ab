//! Writes the last part of crates/cases' stdin and stdout: calls chosen by a fixed seed, and the oracle's answers. The
//! Rust answers what it has, and the model must then say the same; the model answers the rest. The library itself is
//! never called.

mod builder;
mod bytes;
mod codec;
mod history;
mod lines;
mod list;
mod packing;
mod plain;
mod random;
mod refusals;
mod sampler;
mod state;

use list::List;
use random::Random;
use state::State;

const SEED: u64 = 20261115;

/// The list begins behind this line, which stands in both files.
const MARKER: &str =
    "# the oracle's list: made by oracle/vectors/make.sh, with the answers of the Rust and the model\n";

/// Every entry by itself, then what goes over a table.
fn made() -> List {
    let mut list = List::default();
    let mut state = State::start(&mut list);
    let random = &mut Random::new(SEED);
    packing::calls(&mut list, random);
    plain::calls(&mut list, random);
    sampler::calls(&mut list, random);
    bytes::calls(&mut list, random);
    codec::calls(&mut list, random);
    builder::calls(&mut list, random);
    lines::calls(&mut list, random);
    history::calls(&mut list, random, &mut state);
    refusals::calls(&mut list, random, &mut state);
    no_calls(&mut list);
    list
}

/// Nothing; then no number, an entry that there is none of, numbers missing, one too many, a buffer that runs past the
/// line, a number that is no word; then a good call, by which the lines after a bad one are seen to be read as ever.
fn no_calls(list: &mut List) {
    list.add_empty();
    for line in [
        "indicator",
        "0",
        "23",
        "13",
        "14 8",
        "13 8 8",
        "1 8 1 1 1: 5 1",
        "1 8 1 1 1: 5 4294967295: 1",
        "13 4294967296",
    ] {
        list.add_bad(line);
    }
    plain::indicator(list, 8);
}

/// Puts a part of the list in place of what stands behind the file's marker; what stands before it stays.
fn replace(path: &str, part: &str) -> std::io::Result<()> {
    let text = std::fs::read_to_string(path)?;
    let begins = text.find(MARKER).unwrap_or_else(|| panic!("{path} has no line that is the marker"));
    std::fs::write(path, format!("{}{MARKER}{part}", &text[..begins]))
}

fn main() -> std::io::Result<()> {
    let paths: Vec<String> = std::env::args().skip(1).collect();
    let [stdin, stdout] = paths.as_slice() else {
        panic!("two files: where the calls go, and where the answers go");
    };
    let list = made();
    replace(stdin, &list.calls)?;
    replace(stdout, &list.answers)?;
    let [rust, model] = list.sums();
    println!("seed {SEED}: {rust} lines by the Rust, {model} by the model, {} that are no calls", list.bad);
    for (entry, [rust, model]) in &list.counts {
        println!("entry {entry}: {rust} by the Rust, {model} by the model");
    }
    Ok(())
}
