//! A shop for the tests: members in a host's database, and the terminal that asks for them. The host's end is written
//! here from document 01, since the library is the client's end alone.

use ladletwig::{
    build_database, encode_kv_as_row, plain_product, read_response_line, row_vector_x_compressed_transposed_matrix,
    row_wise_compress, transpose, write_query_line, Refusal, Table, Ticket, Unopened,
};

/// The widest interval: three times it is the largest word, so that none is skipped.
pub const INTERVAL: u32 = 1_431_655_765;

/// A small generator (SplitMix64), so that every run draws the same words.
pub struct Words(pub u64);

impl Words {
    pub fn next(&mut self) -> u32 {
        self.0 = self.0.wrapping_add(0x9e37_79b9_7f4a_7c15);
        let mixed = (self.0 ^ (self.0 >> 30)).wrapping_mul(0xbf58_476d_1ce4_e5b9);
        (mixed.wrapping_mul(0x94d0_49bb_1331_11eb) >> 32) as u32
    }

    pub fn take(&mut self, count: usize) -> Vec<u32> {
        (0..count).map(|_| self.next()).collect()
    }

    pub fn bytes(&mut self, count: usize) -> Vec<u8> {
        (0..count).map(|_| self.next() as u8).collect()
    }
}

#[derive(Clone, Copy)]
pub struct Size {
    pub b: u32,
    pub columns: usize,
    pub r: usize,
    pub n: usize,
}

impl Size {
    /// How many bytes of a value a row can hold.
    pub fn room(self) -> usize {
        self.columns * self.b as usize / 8 - 33
    }
}

pub struct Member {
    pub digest: [u8; 32],
    pub value: Vec<u8>,
    pub masks: Vec<u32>,
    pub positions: [u32; 4],
}

/// Member `at` of the writing order owns row `at + 3` and also uses the three rows below, so no earlier member has its
/// target among its positions. The four are rotated so that every target index comes up.
fn places(at: usize) -> ([u32; 4], u32) {
    let mut positions = [0, 1, 2, 3].map(|row| (at + row) as u32);
    positions.rotate_left(at % 4);
    (positions, (3 - at % 4) as u32)
}

fn member(size: Size, at: usize, words: &mut Words) -> Member {
    // Lengths from empty to full, both included, over any few members.
    let length = [size.room(), 0, size.room() / 2, 1.min(size.room())][at % 4];
    Member {
        digest: words.bytes(32).try_into().unwrap(),
        value: words.bytes(length),
        masks: words.take(size.columns),
        positions: places(at).0,
    }
}

fn database(size: Size, members: &[Member]) -> Vec<u32> {
    let mut rows = vec![0; members.len() * size.columns];
    for (member, row) in members.iter().zip(rows.chunks_exact_mut(size.columns)) {
        encode_kv_as_row(size.b, size.columns, &member.digest, &member.value, row).unwrap();
    }
    let masks: Vec<u32> = members.iter().flat_map(|m| m.masks.iter().copied()).collect();
    let positions: Vec<u32> = members.iter().flat_map(|m| m.positions).collect();
    let targets: Vec<u32> = (0..members.len()).map(|at| places(at).1).collect();
    let mut database = vec![7; size.r * size.columns];
    let Size { b, columns, r, .. } = size;
    build_database(b, r, columns, members.len(), &rows, &masks, &positions, &targets, &mut database).unwrap();
    database
}

/// The host keeps the database on its side, packed.
fn packed(size: Size, database: &[u32]) -> Vec<u32> {
    let mut turned = vec![0; database.len()];
    transpose(size.r, size.columns, database, &mut turned).unwrap();
    let factor = [4, 3, 2][usize::from(size.b > 8) + usize::from(size.b > 10)];
    let mut packed = vec![0; size.columns * size.r.div_ceil(factor)];
    row_wise_compress(size.b, size.columns, size.r, &turned, &mut packed).unwrap();
    packed
}

pub struct Shop {
    pub size: Size,
    pub members: Vec<Member>,
    pub words: Words,
    pub table: Table,
    pub slab: Vec<u32>,
    pub matrix: Vec<u32>,
    pub hint: Vec<u32>,
    packed: Vec<u32>,
}

impl Shop {
    pub fn new(size: Size, count: usize) -> Shop {
        let mut words = Words(u64::from(size.b));
        let members: Vec<Member> = (0..count).map(|at| member(size, at, &mut words)).collect();
        let database = database(size, &members);
        let matrix = words.take(size.n * size.r);
        let mut hint = vec![0; size.n * size.columns];
        plain_product(size.n, size.r, size.columns, &matrix, &database, &mut hint).unwrap();
        let table = Table::fresh(size.b, size.columns).unwrap();
        let slab = vec![0; 64 * size.columns];
        Shop { size, members, table, slab, matrix, hint, packed: packed(size, &database), words }
    }

    /// One try at a query for these positions and this digest; the words that it read are gone either way.
    pub fn try_open(&mut self, positions: [u32; 4], digest: &[u8; 32]) -> Result<(u32, Vec<u8>), Unopened> {
        let Size { n, r, .. } = self.size;
        // More than are needed: the open says how many it read.
        let words = self.words.take(n + r + 64);
        let (mut secret, mut error, mut query) = (vec![5; n], vec![5; r], vec![0; r]);
        let (slab, matrix, hint) = (&mut self.slab, &self.matrix, &self.hint);
        let Ticket { number, read } = self.table.query_for_4_wise_xor_filter(
            slab,
            n,
            r,
            matrix,
            hint,
            INTERVAL,
            positions,
            digest,
            &words,
            &mut secret,
            &mut error,
            &mut query,
        )?;
        assert_eq!(read, n + r);
        assert!(secret.iter().chain(&error).all(|word| *word == 0), "the work space is wiped");
        let mut line = vec![0; 27 + 8 * r];
        assert_eq!(write_query_line(number, &query, &mut line), Ok(27 + 8 * r));
        Ok((number, line))
    }

    /// Opens and draws again on a 6, as a terminal has to: at b 4 about every fifth try wraps somewhere.
    pub fn open(&mut self, positions: [u32; 4], digest: &[u8; 32]) -> (u32, Vec<u8>) {
        loop {
            match self.try_open(positions, digest) {
                Ok(opened) => return opened,
                Err(unopened) => assert_eq!(unopened.refusal, Refusal::Wraps),
            }
        }
    }

    pub fn ask(&mut self, at: usize) -> (u32, Vec<u8>) {
        let (positions, digest) = (self.members[at].positions, self.members[at].digest);
        self.open(positions, &digest)
    }

    /// The host: it sees the line and the packed database and nothing else.
    pub fn host(&self, line: &[u8]) -> Vec<u8> {
        let Size { b, columns, r, .. } = self.size;
        let (kind, ticket, query) = parsed(line);
        assert_eq!((kind, query.len()), (1, r));
        let mut sums = vec![0; columns];
        row_vector_x_compressed_transposed_matrix(b, &query, columns, r, &self.packed, &mut sums).unwrap();
        response(ticket, &sums)
    }

    /// The terminal: takes a response line for the member that it asked for.
    pub fn come(&mut self, line: &[u8], masks_of: usize) -> Result<Vec<u8>, Refusal> {
        let mut words = vec![0; self.size.columns + 1];
        let (ticket, columns) = read_response_line(line, &mut words)?;
        let mut value = vec![0xee; self.size.room()];
        let masks = &self.members[masks_of].masks;
        let length = self.table.process_response(&mut self.slab, ticket, &words[..columns], masks, &mut value)?;
        assert!(value[length..].iter().all(|byte| *byte == 0xee), "the rest of the value buffer is kept");
        value.truncate(length);
        Ok(value)
    }
}

fn number(bytes: &[u8]) -> u32 {
    u32::from_le_bytes(bytes.try_into().unwrap())
}

/// Kind, ticket and words of a line of one row.
fn parsed(line: &[u8]) -> (u8, u32, Vec<u32>) {
    let text = std::str::from_utf8(line).unwrap().strip_suffix('\n').unwrap();
    let bytes: Vec<u8> =
        (0..text.len() / 2).map(|at| u8::from_str_radix(&text[2 * at..2 * at + 2], 16).unwrap()).collect();
    let words: Vec<u32> = bytes[13..].chunks_exact(4).map(number).collect();
    assert_eq!((number(&bytes[5..9]), number(&bytes[9..13]) as usize), (1, words.len()));
    (bytes[0], number(&bytes[1..5]), words)
}

pub fn response(ticket: u32, words: &[u32]) -> Vec<u8> {
    let mut bytes = vec![2];
    for word in [ticket, 1, words.len() as u32].iter().chain(words) {
        bytes.extend(word.to_le_bytes());
    }
    let mut line: String = bytes.iter().map(|byte| format!("{byte:02x}")).collect();
    line.push('\n');
    line.into_bytes()
}
