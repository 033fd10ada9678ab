//! Private lookups over a proved archive.
//!
//! A terminal asks a host for a member's record without telling it which member. The work is done by
//! `libladletwig.a`, whose every function is proved against the project's document 01; this crate puts safe Rust types
//! around it and adds nothing of its own.
//!
//! - Slices are handed on as they are. A wrong length isn't a panic: it reaches the library and gets its number.
//! - Nothing is allocated here or there, and nothing is kept: table, slab and work space belong to the caller.
//! - There is no state besides the [`Table`], so tables on different threads don't meet.
//!
//! Through the pages: b is the width of an element in bits (4 to 14), C the database's columns (1 to 512), R its
//! rows (1 to 4,096), n the length of a secret (1 to 2,048), Δ stands for 2^(32-b). Matrices are words, row after
//! row.
//!
//! # Choosing b and R
//!
//! These limits allow more than the noise does, and no call tests it. An honest host's response is always read rightly
//! while R·(2^b - 1) < 2^(31-b):
//!
//! | b | 4 to 9 | 10 | 11 | 12 | 13 | 14 |
//! |---|---|---|---|---|---|---|
//! | R at most | 4,096 | 2,050 | 512 | 128 | 32 | 8 |
//!
//! Beyond that it hangs on the errors drawn, and a wrong value can come back as `Ok`.
//!
//! # A first call
//!
//! ```
//! use ladletwig::{Refusal, Table};
//!
//! // 33 columns of 8 bits hold a digest, the marker and no byte of a value; one column less holds no record at all.
//! assert!(Table::fresh(8, 33).is_ok());
//! assert_eq!(Table::fresh(8, 32).unwrap_err(), Refusal::Shape);
//! assert_eq!(Refusal::Full.to_string(), "8: all 64 slots are taken");
//! ```

#![deny(missing_docs, unsafe_op_in_unsafe_fn, clippy::undocumented_unsafe_blocks)]

mod arith;
mod builder;
mod lines;
mod plain;
#[cfg(not(feature = "raw"))]
mod raw;
#[cfg(feature = "raw")]
pub mod raw;
mod refusal;
mod rounding;
mod table;

pub use arith::{
    decode_kv_from_row, encode_kv_as_row, row_vector_x_compressed_transposed_matrix, row_wise_compress,
    row_wise_decompress, sample_and_return_unread, sample_from_uniform_ternary_dist,
};
pub use builder::build_database;
pub use lines::{read_response_line, write_query_line};
pub use plain::{from_bytes, plain_product, to_bytes, transpose};
pub use refusal::Refusal;
pub use rounding::{calculate_query_indicator, rounded};
pub use table::{Table, Ticket, Unopened};
