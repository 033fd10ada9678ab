//! The Rust's `chalametpir_client` as far as the text given has it: client.rs, patched by build.rs.

#[allow(clippy::all)]
pub mod client {
    include!(concat!(env!("OUT_DIR"), "/client.rs"));

    // The Rust keeps these to itself; a comparison has to see them.
    impl Client {
        /// The stored secret of a pending query.
        pub fn secret(&self, key: &[u8]) -> Option<&[u32]> {
            self.pending_queries.get(key).map(|query| query.vec_c.words())
        }

        /// Makes a query pending that no open has made.
        pub fn pend(&mut self, key: &[u8], secret: Matrix) {
            self.insert_query(key, Query { vec_c: secret });
        }

        pub fn pending(&self) -> usize {
            self.pending_queries.len()
        }

        pub fn indicator(&self) -> u32 {
            self.calculate_query_indicator()
        }
    }
}
