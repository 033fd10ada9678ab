mod patch;

use patch::{patched, Patch};

fn main() {
    println!("cargo:rerun-if-changed=patch.rs");
    let patches = [
        // Unpacking is compiled for the Rust's own tests alone.
        Patch { from: "#[cfg(test)]\n    pub fn row_wise_decompress", to: "pub fn row_wise_decompress", hits: 1 },
        // The interval is a constant there and lent here, ...
        Patch {
            from: "const TERNARY_INTERVAL_SIZE: u32 = (u32::MAX - 2) / 3",
            to: "let TERNARY_INTERVAL_SIZE: u32 = crate::lent::interval()",
            hits: 1,
        },
        // ... so its threefold can't be a constant either.
        Patch { from: "const TERNARY_REJECTION", to: "let TERNARY_REJECTION", hits: 1 },
        // The builder makes as many columns as the longest value needs; 01's builder is lent their number and has no
        // least one. Both arities have the line.
        Patch {
            from: "(HASHED_KEY_BIT_LEN + max_value_bit_len + 8).div_ceil(mat_elem_bit_len) as u32",
            to: "crate::lent::columns()",
            hits: 2,
        },
    ];
    patched("chalametpir_common", "matrix.rs", &patches);
}
