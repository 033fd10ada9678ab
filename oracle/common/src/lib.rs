//! The Rust's `chalametpir_common` as far as the text given has it: `matrix` is the Rust's own file, patched by
//! build.rs; every other module stands in for one that isn't in the text, and `lent` is where their answers come from.

pub mod binary_fuse_filter;
pub mod branch_opt_util;
pub mod error;
pub mod lent;
pub mod params;
pub mod serialization;

// The attributes answer for the patches: a constant's name on a variable, and lengths that nobody asks for.
#[allow(non_snake_case, unused_variables, dead_code, clippy::all)]
pub mod matrix {
    include!(concat!(env!("OUT_DIR"), "/matrix.rs"));

    // The Rust keeps its words to itself; a comparison has to see them.
    impl Matrix {
        pub fn words(&self) -> &[u32] {
            &self.elems
        }

        pub fn into_words(self) -> Vec<u32> {
            self.elems
        }
    }
}
