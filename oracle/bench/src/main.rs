//! Times each entry of the C face, through the safe Rust bindings, against the Rust: one thread, one driver, the same
//! words, and before each time the same answers. Run by hand; nothing is checked against a limit.
//!
//! Inside each time is one call. Ours writes into a buffer that is lent again and again; the Rust allocates what it
//! answers, and that is its own cost. Making its inputs and dropping its answers lies outside.

mod arith;
mod builder;
mod client;
mod clock;
mod inputs;
mod machine;
mod table;

use inputs::{C, N, R};
use table::Row;

const WIDTHS: [u32; 3] = [8, 10, 12];

fn print(rows: Vec<Row>) {
    rows.iter().for_each(Row::print);
}

fn print_each_width(rows: impl Fn(u32) -> Vec<Row>) {
    WIDTHS.into_iter().map(rows).for_each(print);
}

fn main() {
    machine::print();
    println!("R {R}, C {C}, n {N}; one thread; medians; ratio: ours over the Rust");
    println!();
    table::print_head();
    print_each_width(arith::packing);
    print(arith::plain());
    print(arith::sampler());
    print(arith::matrix_bytes());
    print_each_width(arith::codec);
    print_each_width(builder::rows);
    print_each_width(client::rows);
    print(client::lines());
}
