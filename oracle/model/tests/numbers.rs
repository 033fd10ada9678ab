//! 01's "Numbers to hold against it", the example line, and each refusal of each entry.

use model::*;

const MAX: u32 = u32::MAX;

#[test]
fn cases_1_to_6_packing() {
    let cases: [(u32, &[u32], &[u32]); 5] = [
        (10, &[1, 2, 3, 4], &[3147777, 4]),
        (8, &[255, 256, 1], &[65791]),
        (11, &[2047, 1], &[67583]),
        (4, &[15, 1, 2, 3, 4], &[50462991, 4]),
        (9, &[511, 1, 0], &[1535]),
    ];
    for (b, row, packed) in cases {
        let mut out = [77; 5];
        assert_eq!(row_wise_compress(b, 1, row.len(), row, &mut out), 0);
        assert_eq!((&out[..packed.len()], out[packed.len()]), (packed, 77));
        let mut back = [77; 6];
        assert_eq!(row_wise_decompress(b, 1, row.len(), packed, &mut back), 0);
        let low: Vec<u32> = row.iter().map(|element| element % (1 << b)).collect();
        assert_eq!((&back[..row.len()], back[row.len()]), (&low[..], 77));
    }
    let mut out = [0, 77];
    let number = row_vector_x_compressed_transposed_matrix(10, &[2, 3, MAX, 1], 1, 4, &[3147777, 4], &mut out);
    assert_eq!((number, out), (0, [9, 77]));
}

#[test]
fn case_7_sampler() {
    let words = [0, 5, 6, 16, 10, 11, 15, 3];
    let mut out = [77; 6];
    assert_eq!(sample_from_uniform_ternary_dist(5, &words[..7], &mut out), Sampled { number: 0, read: 7 });
    assert_eq!(out, [0, 0, 1, 1, MAX, MAX]);
    assert_eq!(sample_and_return_unread(5, &words, &mut out), [3]);
    assert_eq!(sample_from_uniform_ternary_dist(5, &words, &mut []), Sampled { number: 0, read: 0 });
    let first = |interval, words, out| sample_from_uniform_ternary_dist_tests(interval, words, out).first();
    assert_eq!([first(0, &[], &[0; 4097]), first(0, &[], &[0]), first(1431655766, &[], &[0])], [2, 4, 4]);
    assert_eq!([first(5, &words[..6], &[0; 6]), first(1431655765, &[MAX], &[0])], [3, 0]);
    assert_eq!(sample_and_return_unread(0, &words, &mut out), words);
    assert_eq!(sample_from_uniform_ternary_dist_tests(0, &[], &[0; 4097]).holding(), [2, 4, 3]);
}

#[test]
fn cases_8_to_11_rounding() {
    assert_eq!([2097152, 2097153, 4294967295, 4292870144].map(|u| rounded(10, u)), [0, 1, 0, 1023]);
    assert_eq!([4, 14].map(calculate_query_indicator), [1 << 28, 1 << 18]);
    assert_eq!([0, 3, 15, 32, MAX].map(|b| (calculate_query_indicator(b), rounded(b, MAX / 2))), [(0, 0); 5]);
}

#[test]
fn row_codec() {
    let mut row = [77; 34];
    assert_eq!([33, 32].map(|c| encode_kv_as_row(8, c, &[7; 32], &[], &mut row)), [0, 2]);
    assert_eq!(row[31..], [7, 129, 77]);
    let write = |b, c, value, out| encode_kv_as_row_tests(b, c, value, out).first();
    assert_eq!([write(3, 513, &[0], &[]), write(15, 33, &[], &[0; 33])], [1, 1]);
    assert_eq!([write(8, 513, &[], &[0; 513]), write(8, 33, &[0], &[0; 32]), write(8, 33, &[0], &[0; 33])], [2, 2, 16]);
    let (mut digest, mut value) = ([0; 33], [77; 3]);
    assert_eq!(encode_kv_as_row(11, 26, &[7; 32], &[0, 9], &mut row), 0);
    assert_eq!(decode_kv_from_row(11, 26, &row[..26], &mut digest, &mut value), Decoded { number: 0, length: 2 });
    assert_eq!((digest[31], digest[32], value), (7, 0, [0, 9, 77]));
    let read = |b, c, row, digest, value| decode_kv_from_row_tests(b, c, row, digest, value).first();
    assert_eq!([read(8, 32, &[0; 32], &[0; 32], &[0]), read(4, 513, &[0; 513], &[0; 32], &[0; 999])], [2; 2]);
    assert_eq!([read(8, 34, &[0; 34], &[0; 31], &[0]), read(8, 34, &[0; 34], &[0; 32], &[])], [2; 2]);
    let zeros = [read(15, 33, &[0; 33], &[0; 32], &[]), read(8, 33, &[0; 33], &[0; 32], &[])];
    assert_eq!((read(8, 33, &[256; 33], &[0; 32], &[]), zeros), (17, [1, 13]));
    row = [0; 34];
    row[31] = 129;
    assert_eq!(decode_kv_from_row(8, 34, &row, &mut digest, &mut value), Decoded { number: 13, length: 0 });
}

#[test]
fn plain_and_packed_refusals() {
    let mut out = [77; 5];
    assert_eq!((plain_product(2, 1, 2, &[MAX, 2], &[3, 4], &mut out), out), (0, [MAX - 2, MAX - 3, 6, 8, 77]));
    assert_eq!((transpose(2, 2, &[5, 6, 7, 8], &mut out), out), (0, [5, 7, 6, 8, 77]));
    assert_eq!((transpose(1, 2, &[1, 2], &mut out), out), (0, [1, 2, 6, 8, 77]));
    let product = |r, m, c, left: usize, right: usize, out: usize| {
        plain_product_tests(r, m, c, &vec![0; left], &vec![0; right], &vec![0; out]).first()
    };
    assert_eq!([product(0, 1, 1, 0, 1, 0), product(1, 4097, 1, 4097, 4097, 1), product(!0, !0, !0, 1, 1, 1)], [2; 3]);
    assert_eq!([product(1, 1, 1, 2, 1, 1), product(1, 1, 1, 1, 0, 1), product(1, 1, 2, 1, 2, 1)], [2; 3]);
    assert_eq!([transpose_tests(1, 0, &[], &[]).first(), transpose_tests(1, 2, &[0; 2], &[0]).first()], [2; 2]);
    let pack = |b, rows, k, words, out| row_wise_compress_tests(b, rows, k, words, out).holding();
    assert_eq!([pack(3, 1, 1, &[0], &[]), pack(8, 1, 5, &[0; 5], &[0])], [[1], [2]]);
    assert_eq!([pack(15, 0, 1, &[], &[]), pack(MAX, 1, usize::MAX, &[0], &[0])], [[1, 2], [1, 2]]);
    let unpack = |b, rows, k, words, out| row_wise_decompress_tests(b, rows, k, words, out).first();
    assert_eq!([unpack(15, 1, 1, &[0], &[0]), unpack(8, 1, 5, &[0], &[0; 5]), unpack(8, 513, 1, &[], &[])], [1, 2, 2]);
    let times = |b, v, k, words, out| row_vector_x_compressed_transposed_matrix_tests(b, v, 1, k, words, out).first();
    assert_eq!([times(0, &[], 0, &[], &[]), times(8, &[0], 2, &[0], &[0]), times(8, &[], 0, &[], &[0])], [1, 2, 2]);
}

#[test]
fn matrix_bytes_and_lines() {
    let mut bytes = [77; 17];
    assert_eq!(to_bytes(1, 2, &[1, 1 << 31], &mut bytes), 0);
    assert_eq!(bytes, [1, 0, 0, 0, 2, 0, 0, 0, 1, 0, 0, 0, 0, 0, 0, 128, 77]);
    let mut out = [77; 3];
    assert_eq!(from_bytes(&bytes[..16], &mut out), Parsed { number: 0, rows: 1, columns: 2 });
    assert_eq!(out, [1, 1 << 31, 77]);
    assert_eq!([to_bytes(1, 0, &[], &mut bytes), to_bytes(1, 2, &[0; 2], &mut bytes[..15])], [2; 2]);
    let read = |bytes, out| from_bytes_tests(bytes, out).first();
    assert_eq!([read(&[], &[]), read(&[0; 7], &[]), read(&bytes, &[]), read(&[255; 8], &[])], [11; 4]);
    assert_eq!([read(&bytes[..16], &[0]), read(&[0; 8], &[])], [2; 2]);

    let line = b"020700000001000000020000000100000000000080\n";
    out = [77; 3];
    assert_eq!(read_response_line(line, &mut out), LineRead { number: 0, ticket: 7, columns: 2 });
    assert_eq!(out, [1, 1 << 31, 77]);
    assert_eq!(read_response_line(line, &mut out[..1]), LineRead { number: 2, ticket: 0, columns: 0 });
    let mut written = [77; 44];
    assert_eq!(write_query_line(7, &[1, 1 << 31], &mut written), LineWritten { number: 0, length: 43 });
    assert_eq!((&written[..2], &written[2..43], written[43]), (&b"01"[..], &line[2..], 77));
    let changes: [(usize, u8); 6] = [(1, b'1'), (3, b'0'), (11, b'2'), (19, b'3'), (41, b'A'), (42, b'0')];
    for (at, byte) in changes {
        let mut changed = *line;
        changed[at] = byte;
        assert_eq!(read_response_line_tests(&changed, &out).first(), 11, "{at}");
    }
    for changed in [&b""[..], b"\n", b"0\n", &line[..42], &line[1..], b"02070000000100000000000000\n"] {
        assert_eq!(read_response_line_tests(changed, &[]).holding(), [11]);
    }
    let write = |ticket, words, out| write_query_line_tests(ticket, words, out).first();
    assert_eq!([write(0, &[], &[]), write(1, &[], &[0; 99]), write(1, &[0], &[0; 34])], [11, 2, 2]);
}

#[test]
fn builder() {
    let mut database = [77; 7];
    let (positions, targets) = ([0, 1, 2, 3, 3, 4, 5, 1], [0, 2]);
    let number = build_database(4, 6, 1, 2, &[1, 9], &[3, 20], &positions, &targets, &mut database);
    assert_eq!((number, database), (0, [14, 0, 0, 0, 0, 5, 77]));
    let build = |b, r, c, rows: &[u32], positions: &[u32], targets: &[u32]| {
        build_database_tests(b, r, c, targets.len(), rows, rows, positions, targets, &[0; 7]).first()
    };
    assert_eq!((build_database(4, 6, 1, 0, &[], &[], &[], &[], &mut database), &database[5..]), (0, &[0, 77][..]));
    assert_eq!([build(4, 8, 1, &[0], &[0, 1, 2, 3], &[0]), build(4, 1, 1, &[0, 0], &[0; 8], &[0, 0])], [2; 2]);
    assert_eq!([build(4, 6, 1, &[], &[0; 4], &[0]), build(4, 6, 1, &[0], &[0; 3], &[0])], [2; 2]);
    assert_eq!([build(4, 6, 1, &[16], &[0; 4], &[4]), build(4, 6, 1, &[0], &[0, 1, 2, 3], &[4])], [17, 15]);
    assert_eq!([build(4, 6, 1, &[0], &[0, 1, 2, 6], &[0]), build(4, 6, 1, &[0], &[0, 1, 2, 0], &[0])], [15; 2]);
    assert_eq!([build(3, 6, 1, &[16], &[0; 4], &[4]), build(4, 6, 1, &[0, 0], &positions, &[0, 0])], [1, 15]);
}

/// A client with n 1, R 5, C 40 and b 10 beside a database with one key (digest 7s, value 1, 2).
struct World {
    table: Table,
    slab: Vec<u32>,
    database: [u32; 200],
    masks: [u32; 40],
    work: ([u32; 1], [u32; 5]),
    query: [u32; 6],
}

/// s is 1; e is 0, -1, 1, 0, 0.
const WORDS: [u32; 8] = [6, 16, 0, 11, 6, 5, 0, 99];
const AT: [u32; 4] = [0, 4, 2, 3];

impl World {
    fn new() -> World {
        let (table, mut database, mut row) = (fresh(10, 40).table, [0; 200], [0; 40]);
        let masks = std::array::from_fn(|j| j as u32 * 4_000_000);
        assert_eq!(encode_kv_as_row(10, 40, &[7; 32], &[1, 2], &mut row), 0);
        assert_eq!(build_database(10, 5, 40, 1, &row, &masks, &AT, &[1], &mut database), 0);
        World { table, slab: vec![0; 64 * 40], database, masks, work: ([8], [8; 5]), query: [77; 6] }
    }

    fn open(&mut self, a: &[u32; 5], i: u32, at: [u32; 4], digest: u8, words: &[u32]) -> Opened {
        let mut hint = [0; 40];
        assert_eq!(plain_product(1, 5, 40, a, &self.database, &mut hint), 0);
        let (table, slab, (s, e)) = (&mut self.table, &mut self.slab, &mut self.work);
        query_for_4_wise_xor_filter(table, slab, 1, 5, a, &hint, i, at, &[digest; 32], words, s, e, &mut self.query)
    }

    fn good(&mut self, digest: u8) -> Opened {
        self.open(&[5, 6, 7, 8, 1 << 31], 5, AT, digest, &WORDS)
    }

    fn reply(&mut self, ticket: u32, columns: usize, value: &mut [u8]) -> Replied {
        let mut response = [0; 40];
        assert_eq!(plain_product(1, 5, 40, &self.query[..5], &self.database, &mut response), 0);
        process_response(&mut self.table, &mut self.slab, ticket, &response[..columns], &self.masks, value)
    }
}

#[test]
fn case_12_open_and_its_refusals() {
    let (mut world, delta) = (World::new(), 1 << 22);
    let a = [4290772992, 0, 0, 0, 0];
    assert_eq!(world.open(&a, 5, AT, 7, &WORDS), Opened { number: 6, ticket: 0, read: 7 });
    assert_eq!((&world.table, world.work, world.query), (&fresh(10, 40).table, ([0], [0; 5]), [77; 6]));
    world.work = ([8], [8; 5]);
    let refused = |number| Opened { number, ticket: 0, read: 0 };
    assert_eq!(world.open(&a, 5, AT, 7, &WORDS[..6]), refused(3));
    assert_eq!(world.open(&a, 0, [0; 4], 7, &[]), refused(4));
    assert_eq!([[0, 1, 2, 5], [0, 1, 2, 1]].map(|at| world.open(&a, 5, at, 7, &[])), [5; 2].map(refused));
    world.slab.push(0);
    assert_eq!((world.good(7), discard_query(&mut world.table, &mut world.slab, 1)), (refused(2), 2));
    assert_eq!(world.reply(1, 40, &mut [0; 17]), Replied { number: 2, length: 0 });
    world.slab.pop();
    world.table.next = MAX;
    assert_eq!(world.good(7), refused(9));
    world.table.next = 0;
    assert_eq!((world.good(7), discard_query(&mut world.table, &mut world.slab, 1)), (refused(18), 18));
    assert_eq!(world.reply(1, 40, &mut [0; 17]), Replied { number: 18, length: 0 });
    assert_eq!((world.work, world.query), (([8], [8; 5]), [77; 6]));
    world.table.next = 1;
    assert_eq!(world.open(&[4290772991, 1, 2, 3, 4], 5, AT, 7, &WORDS), Opened { number: 0, ticket: 1, read: 7 });
    assert_eq!(world.query, [MAX, 0, 3 + delta, 3 + delta, 4 + delta, 77]);
    assert_eq!((world.table.used(), world.table.next, world.work), (vec![0], 2, ([0], [0; 5])));
    assert_eq!(world.good(7), refused(7));
    (2..=64).for_each(|ticket| assert_eq!(world.good(ticket as u8 + 7).ticket, ticket));
    assert_eq!(world.good(200), refused(8));
    assert_eq!([discard_query(&mut world.table, &mut world.slab, 9), world.good(200).number], [0, 0]);
    assert_eq!(world.table.slot(65), Some(8));
}

#[test]
fn replies_and_malformed_tables() {
    let (mut world, mut value) = (World::new(), [77; 18]);
    let answer = |number, length| Replied { number, length };
    assert_eq!([7, 8].map(|digest| world.good(digest).ticket), [1, 2]);
    assert_eq!(world.reply(0, 40, &mut value), answer(10, 0));
    assert_eq!([world.reply(1, 39, &mut value), world.reply(1, 40, &mut value[..16])], [answer(12, 0), answer(2, 0)]);
    assert_eq!([world.reply(1, 40, &mut value), world.reply(1, 40, &mut value)], [answer(0, 2), answer(10, 0)]);
    assert_eq!((&value[..3], world.table.used()), (&[1, 2, 77][..], vec![1]));
    assert_eq!([world.reply(2, 40, &mut value), world.reply(2, 40, &mut value)], [answer(14, 0), answer(10, 0)]);
    assert_eq!(world.good(9).ticket, 3);
    world.masks = [0; 40];
    assert_eq!(world.reply(3, 40, &mut value), answer(13, 0));
    assert_eq!(world.table, Table { next: 4, ..fresh(10, 40).table });
    assert!(world.slab.iter().all(|&word| word == 0) && value[2..].iter().all(|&byte| byte == 77));
    assert_eq!(discard_query(&mut world.table, &mut world.slab, 3), 10);
    assert_eq!([fresh(3, 0), fresh(15, 40), fresh(8, 32), fresh(8, 513)].map(|made| made.number), [1, 1, 2, 2]);
    let mut good = fresh(10, 40).table;
    (good.next, good.numbers[1], good.numbers[5]) = (4, 2, 3);
    good.set_digest(5, &[7; 32]);
    let bad = |change: fn(&mut Table)| {
        let mut table = good.clone();
        change(&mut table);
        is_malformed(&table)
    };
    assert!(!bad(|_| ()) && !bad(|t| (t.b, t.columns) = (4, 66)) && !bad(|t| (t.next, t.numbers[0]) = (MAX, 0)));
    assert!(bad(|t| t.b = 15) && bad(|t| t.columns = 513) && bad(|t| (t.b, t.columns) = (8, 32)));
    assert!(bad(|t| *t = fresh(8, 32).table) && bad(|t| *t = Table { next: 0, ..fresh(8, 33).table }));
    assert!(bad(|t| t.next = 3) && bad(|t| t.numbers[1] = 3) && bad(|t| t.set_digest(5, &[0; 32])));
    assert!(bad(|t| t.digests[2047] = 1) && bad(|t| t.numbers[5] = 0));
}
