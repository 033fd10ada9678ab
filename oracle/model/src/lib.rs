//! Document 01 ("Rules for what is to be built") as plain functions, to be read beside it. Written from 01 alone, by
//! somebody who was given 01 and the names and types below, and nothing else of this repository; but for `decided`, and the
//! sentences here that name it.
//!
//! Every entry `E` for which 01 gives an order of refusals has `E_tests` beside it, with their conditions in that order.
//! `E` answers the number of the first that holds, 0 for success, and changes what it was lent as 01 says.
//!
//! Points that have no sentence of 01, or one that can be read in two ways, and what is taken here:
//!
//! 1. `calculate_query_indicator` and `rounded` have no number to give for b outside 4..=14: they answer 0. The library
//!    decided otherwise there, and is held to `decided`, which isn't 01's.
//! 2. A refused `fresh` brings a table of zeros (b, C, next, numbers, digests), which is malformed.
//! 3. The slab is read and written: its length is exactly 64·C ("a lent slab of 64·C words"), else 2.
//! 4. The row reader's two buffers and the builder's database are outputs: they may be longer.
//! 5. A reply's masks are a lent length: exactly C, else 2.
//! 6. Matrix bytes under 8 bytes have no dimensions: 11.
//! 7. A line writer's word count outside 1..=4096 is 2 (a dimension); in a line that is read it is 11.
//! 8. A reply lists 17, but its row is made modulo 2^b: the condition never holds. Masks are not row elements.
//! 9. Open, reply and discard leave the limits of a table's b, C and C·b to 18: their 2 has none of these.
//! 10. A condition by itself, where an earlier one holds too: 2^b, 3I and floor(C·b/8)-33 are integers for every b, I
//!     and C. 17 looks at all elements lent as rows, 13 at the low b bits of each of C elements, 14 at a row's first 32
//!     bytes whether or not it has a marker, 6 at those of the four positions that are below R, a reader's 2 at the
//!     dimensions stated in its input. What then can't be computed (for want of b, a length, words, a ticket) is false.
#![forbid(unsafe_code)]
// The parameters are those of 01's entries, all lent flat.
#![allow(clippy::too_many_arguments)]

mod builder;
mod bytes;
mod client;
mod codec;
pub mod decided;
mod lines;
mod packing;
mod plain;
mod refusal;
mod sampler;
mod table;

pub use builder::*;
pub use bytes::*;
pub use client::*;
pub use codec::*;
pub use lines::*;
pub use packing::*;
pub use plain::*;
pub use refusal::*;
pub use sampler::*;
pub use table::*;
