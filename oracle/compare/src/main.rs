//! Holds the proved library against the model of document 01, call by call, and against the Rust where 01's domain for
//! equality has the call. Every value, count and buffer with its unwritten rest is compared.
//!
//! compare [--calls N] [--seed S] [--entry NAME]

mod builder;
mod bytes;
mod codec;
mod face;
mod history;
mod lines;
mod matrix;
mod open;
mod packing;
mod product;
mod reply;
mod report;
mod rng;
mod rounding;
mod sampler;
mod subject;
mod table;

use std::process::exit;

use report::Entry;
use subject::Plan;

type Part = fn(&Plan) -> Vec<Entry>;

/// The parts, each with the entries that it runs.
const PARTS: &[(&[&str], Part)] = &[
    (&["row_wise_compress"], |plan| vec![packing::run::<false>(plan)]),
    (&["row_wise_decompress"], |plan| vec![packing::run::<true>(plan)]),
    (&["row_vector_x_compressed_transposed_matrix"], |plan| vec![product::run(plan)]),
    (&["plain_product"], |plan| vec![matrix::product(plan)]),
    (&["transpose"], |plan| vec![matrix::transpose(plan)]),
    (&["sample_from_uniform_ternary_dist"], |plan| vec![sampler::run::<false>(plan)]),
    (&["sample_and_return_unread"], |plan| vec![sampler::run::<true>(plan)]),
    (&["to_bytes"], |plan| vec![bytes::write(plan)]),
    (&["from_bytes"], |plan| vec![bytes::read(plan)]),
    (&["encode_kv_as_row"], |plan| vec![codec::encode(plan)]),
    (&["decode_kv_from_row"], |plan| vec![codec::decode(plan)]),
    (&["build_database"], |plan| vec![builder::run(plan)]),
    (&["calculate_query_indicator"], |plan| vec![rounding::indicator(plan)]),
    (&["rounded"], |plan| vec![rounding::rounded(plan)]),
    (&["fresh"], |plan| vec![table::fresh(plan)]),
    (&["is_malformed"], |plan| vec![table::malformed(plan)]),
    (&["query_for_4_wise_xor_filter", "process_response", "discard_query"], history::run),
    (&["write_query_line"], |plan| vec![lines::write(plan)]),
    (&["read_response_line"], |plan| vec![lines::read(plan)]),
];

fn usage() -> ! {
    eprintln!("compare [--calls N] [--seed S] [--entry NAME]");
    exit(2)
}

/// The plan, and the one entry that is asked for, if one is.
fn arguments() -> (Plan, Option<String>) {
    let (mut plan, mut entry) = (Plan { calls: 5000, seed: 1 }, None);
    let mut arguments = std::env::args().skip(1);
    while let Some(name) = arguments.next() {
        let value = arguments.next().unwrap_or_else(|| usage());
        match name.as_str() {
            "--calls" => plan.calls = value.parse().unwrap_or_else(|_| usage()),
            "--seed" => plan.seed = value.parse().unwrap_or_else(|_| usage()),
            "--entry" => entry = Some(value),
            _ => usage(),
        }
    }
    (plan, entry)
}

fn main() {
    let (plan, wanted) = arguments();
    let asked = |names: &[&str]| wanted.as_deref().is_none_or(|wanted| names.contains(&wanted));
    let (mut calls, mut different, mut missing, mut entries) = (0, 0, false, 0);
    println!("seed {}, at least {} calls of each entry", plan.seed, plan.calls);
    for (_, part) in PARTS.iter().filter(|(names, _)| asked(names)) {
        for entry in part(&plan) {
            missing |= entry.print();
            calls += entry.calls;
            different += entry.different;
            entries += 1;
        }
    }
    if entries == 0 {
        usage();
    }
    println!("compare: {calls} calls, {different} different");
    exit(i32::from(different > 0 || missing))
}
