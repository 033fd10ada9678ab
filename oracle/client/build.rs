#[path = "../common/patch.rs"]
mod patch;

use patch::{patched, Patch};

fn main() {
    println!("cargo:rerun-if-changed=../common/patch.rs");
    let patches = [
        // The secret's length is a constant there and lent here: first its import, ...
        Patch { from: "LWE_DIMENSION, SEED", to: "lwe_dimension, SEED", hits: 1 },
        // ... then each use, of which `setup` has two and each arity's query one.
        Patch { from: "LWE_DIMENSION", to: "lwe_dimension()", hits: 4 },
    ];
    patched("chalametpir_client", "client.rs", &patches);
}
