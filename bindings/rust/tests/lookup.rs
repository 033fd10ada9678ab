//! Whole lookups through the safe face: a database is built, a terminal asks, a host answers, and the value that comes
//! out is the member's own. Then the ways in which a line can come wrong.

mod shop;

use ladletwig::{Refusal, Table, Unopened};
use shop::{response, Shop, Size, INTERVAL};

const SMALL: Size = Size { b: 10, columns: 33, r: 7, n: 5 };

/// What a refused call must not have touched.
fn kept<T>(shop: &mut Shop, call: impl FnOnce(&mut Shop) -> T) -> T {
    let (table, slab) = (shop.table.clone(), shop.slab.clone());
    let answer = call(shop);
    assert!(shop.table == table && shop.slab == slab, "table and slab are as they were");
    answer
}

/// Nothing of a closed ticket is left.
fn closed(shop: &Shop) {
    assert!(shop.table.numbers.iter().all(|number| *number == 0));
    assert!(shop.table.digests.iter().all(|byte| *byte == 0));
    assert!(shop.slab.iter().all(|word| *word == 0));
    assert!(!shop.table.is_malformed());
}

fn fetch_all(shop: &mut Shop, which: impl Iterator<Item = usize>) {
    for at in which {
        let (_, query) = shop.ask(at);
        let line = shop.host(&query);
        assert_eq!(shop.come(&line, at).as_ref(), Ok(&shop.members[at].value), "member {at}");
        closed(shop);
    }
}

// With seven rows the noise keeps demand 3's bound whatever is drawn, for every b: 7 · (2^14 - 1) is below 2^17.
#[test]
fn every_width_gives_each_member_its_own_value() {
    for b in 4..=14 {
        let columns = (264 + 8 * 5) / b as usize + 1;
        let mut shop = Shop::new(Size { b, columns, ..SMALL }, 4);
        fetch_all(&mut shop, [2, 0, 3, 1, 0].into_iter());
    }
}

#[test]
fn replies_in_another_order_find_their_tickets() {
    let mut shop = Shop::new(SMALL, 4);
    let queries: Vec<_> = (0..4).map(|at| shop.ask(at)).collect();
    assert_eq!(queries.iter().map(|(ticket, _)| *ticket).collect::<Vec<_>>(), [1, 2, 3, 4]);
    for at in [2, 0, 3, 1] {
        let line = shop.host(&queries[at].1);
        assert_eq!(shop.come(&line, at).as_ref(), Ok(&shop.members[at].value));
    }
    closed(&shop);
    assert_eq!(shop.ask(0).0, 5, "numbers aren't used again");
}

#[test]
fn the_largest_database() {
    let size = Size { b: 10, columns: 512, r: 4096, n: 2048 };
    let mut shop = Shop::new(size, 4093);
    fetch_all(&mut shop, [0, 1, 2046, 4092].into_iter());
}

#[test]
fn a_line_that_comes_twice() {
    let mut shop = Shop::new(SMALL, 4);
    let (_, query) = shop.ask(0);
    let line = shop.host(&query);
    assert!(shop.come(&line, 0).is_ok());
    assert_eq!(kept(&mut shop, |shop| shop.come(&line, 0)), Err(Refusal::NotPending));
}

#[test]
fn a_line_that_comes_after_discard() {
    let mut shop = Shop::new(SMALL, 4);
    let (ticket, query) = shop.ask(0);
    let late = shop.host(&query);
    assert_eq!(shop.table.discard_query(&mut shop.slab, ticket), Ok(()));
    closed(&shop);
    assert_eq!(kept(&mut shop, |shop| shop.come(&late, 0)), Err(Refusal::NotPending));
    // The slot is taken again by a newer query of the same member, and the late line still isn't its answer.
    let (newer, query) = shop.ask(0);
    assert_eq!(newer, 2);
    assert_eq!(kept(&mut shop, |shop| shop.come(&late, 0)), Err(Refusal::NotPending));
    let line = shop.host(&query);
    assert_eq!(shop.come(&line, 0).as_ref(), Ok(&shop.members[0].value));
}

#[test]
fn discard_refuses_what_is_not_pending() {
    let mut shop = Shop::new(SMALL, 4);
    shop.ask(0);
    for ticket in [0, 2, u32::MAX] {
        let answer = kept(&mut shop, |shop| shop.table.discard_query(&mut shop.slab, ticket));
        assert_eq!(answer, Err(Refusal::NotPending));
    }
    let answer = kept(&mut shop, |shop| shop.table.discard_query(&mut shop.slab[1..], 1));
    assert_eq!(answer, Err(Refusal::Shape));
}

#[test]
fn another_members_row_closes_the_ticket() {
    let mut shop = Shop::new(SMALL, 4);
    // Member 1's card is read, and member 2's positions are asked for.
    let (positions, digest) = (shop.members[2].positions, shop.members[1].digest);
    let (_, query) = shop.open(positions, &digest);
    let line = shop.host(&query);
    assert_eq!(shop.come(&line, 2), Err(Refusal::Digest));
    closed(&shop);
    assert_eq!(kept(&mut shop, |shop| shop.come(&line, 2)), Err(Refusal::NotPending));
}

#[test]
fn a_row_without_marker_closes_the_ticket() {
    let mut shop = Shop::new(SMALL, 4);
    let (ticket, _) = shop.ask(0);
    // The secret itself as the response and no masks: the row is all zero, so nothing in it is a marker.
    let secret = shop.slab[..SMALL.columns].to_vec();
    let (masks, mut value) = (vec![0; SMALL.columns], vec![0xee; SMALL.room()]);
    let answer = shop.table.process_response(&mut shop.slab, ticket, &secret, &masks, &mut value);
    assert_eq!(answer, Err(Refusal::Marker));
    assert!(value.iter().all(|byte| *byte == 0xee));
    closed(&shop);
}

#[test]
fn a_response_of_the_wrong_length_and_then_the_good_one() {
    let mut shop = Shop::new(SMALL, 4);
    let (ticket, query) = shop.ask(0);
    let good = shop.host(&query);
    for length in [1, SMALL.columns - 1, SMALL.columns + 1] {
        let answer = kept(&mut shop, |shop| shop.come(&response(ticket, &vec![3; length]), 0));
        assert_eq!(answer, Err(Refusal::Length));
    }
    assert_eq!(shop.come(&good, 0).as_ref(), Ok(&shop.members[0].value));
}

#[test]
fn a_torn_line_changes_nothing() {
    let mut shop = Shop::new(SMALL, 4);
    let (_, query) = shop.ask(0);
    let good = shop.host(&query);
    let upper = good.to_ascii_uppercase();
    for torn in [&good[1..], &good[..good.len() - 1], &query, &upper, &[]] {
        assert_eq!(kept(&mut shop, |shop| shop.come(torn, 0)), Err(Refusal::Malformed));
    }
    assert_eq!(shop.come(&good, 0).as_ref(), Ok(&shop.members[0].value));
}

#[test]
fn sixty_five_opens() {
    let mut shop = Shop::new(SMALL, 4);
    let positions = shop.members[0].positions;
    for at in 0..64 {
        assert_eq!(shop.open(positions, &[at; 32]).0, u32::from(at) + 1);
    }
    let full = Unopened { refusal: Refusal::Full, read: 0 };
    assert_eq!(kept(&mut shop, |shop| shop.try_open(positions, &[64; 32])), Err(full));
    // Document 01's order has 7 before 8.
    let pending = Unopened { refusal: Refusal::Pending, read: 0 };
    assert_eq!(kept(&mut shop, |shop| shop.try_open(positions, &[63; 32])), Err(pending));
    shop.table.discard_query(&mut shop.slab, 10).unwrap();
    assert_eq!(shop.open(positions, &[64; 32]).0, 65, "a freed slot is used again, a number never");
    assert_eq!(shop.table.numbers[9], 65);
}

#[test]
fn the_same_digest_twice() {
    let mut shop = Shop::new(SMALL, 4);
    shop.ask(1);
    let (positions, digest) = (shop.members[1].positions, shop.members[1].digest);
    let pending = Unopened { refusal: Refusal::Pending, read: 0 };
    assert_eq!(kept(&mut shop, |shop| shop.try_open(positions, &digest)), Err(pending));
}

/// Everything that an open is lent, so that a test can spoil one thing at a time.
struct Lent {
    n: usize,
    matrix: Vec<u32>,
    interval: u32,
    positions: [u32; 4],
    words: Vec<u32>,
    secret: Vec<u32>,
    error: Vec<u32>,
    query: Vec<u32>,
}

fn lent(shop: &mut Shop) -> Lent {
    let Size { n, r, .. } = SMALL;
    Lent {
        n,
        matrix: shop.matrix.clone(),
        interval: INTERVAL,
        positions: shop.members[3].positions,
        words: shop.words.take(n + r + 64),
        secret: vec![5; n],
        error: vec![6; r],
        query: vec![7; r + 1],
    }
}

/// An open that must be refused and must leave table, slab, query and (except on 6) the work space alone.
fn refused(shop: &mut Shop, spoil: impl FnOnce(&mut Lent)) -> Unopened {
    let mut l = lent(shop);
    spoil(&mut l);
    let held = (l.secret.clone(), l.error.clone(), l.query.clone());
    let hint = shop.hint.clone();
    let unopened = kept(shop, |shop| {
        let (table, slab) = (&mut shop.table, &mut shop.slab);
        let Lent { n, matrix, interval, positions, words, secret, error, query } = &mut l;
        let (n, r, interval, positions) = (*n, SMALL.r, *interval, *positions);
        table.query_for_4_wise_xor_filter(
            slab, n, r, matrix, &hint, interval, positions, &[3; 32], words, secret, error, query,
        )
    })
    .unwrap_err();
    assert_eq!(l.query, held.2);
    match unopened.refusal {
        Refusal::Wraps => assert!(l.secret.iter().chain(&l.error).all(|word| *word == 0)),
        _ => assert!((l.secret, l.error) == (held.0, held.1) && unopened.read == 0),
    }
    unopened
}

#[test]
fn refused_opens_keep_the_table() {
    let mut shop = Shop::new(SMALL, 4);
    shop.ask(0);
    assert_eq!(refused(&mut shop, |l| l.n = 0).refusal, Refusal::Shape);
    assert_eq!(refused(&mut shop, |l| l.secret.push(0)).refusal, Refusal::Shape);
    assert_eq!(refused(&mut shop, |l| l.query.truncate(6)).refusal, Refusal::Shape);
    assert_eq!(refused(&mut shop, |l| l.interval = 0).refusal, Refusal::Interval);
    assert_eq!(refused(&mut shop, |l| l.interval = INTERVAL + 1).refusal, Refusal::Interval);
    assert_eq!(refused(&mut shop, |l| l.positions[2] = 7).refusal, Refusal::Positions);
    assert_eq!(refused(&mut shop, |l| l.positions[2] = l.positions[0]).refusal, Refusal::Positions);
    assert_eq!(refused(&mut shop, |l| l.words.truncate(11)).refusal, Refusal::WordsEnd);
    assert_eq!(refused(&mut shop, |l| l.words.clear()).refusal, Refusal::WordsEnd);
    // 2 comes before 4, 4 before 5, 5 before 3.
    assert_eq!(refused(&mut shop, |l| (l.n, l.interval) = (0, 0)).refusal, Refusal::Shape);
    assert_eq!(refused(&mut shop, |l| (l.interval, l.positions) = (0, [1; 4])).refusal, Refusal::Interval);
    assert_eq!(refused(&mut shop, |l| (l.positions, l.words) = ([1; 4], vec![])).refusal, Refusal::Positions);
}

// The secret's words give 0 and the error's -1: every entry of the query is then 2^32-1, and Δ wraps it.
#[test]
fn a_wrap_uses_up_its_words() {
    let mut shop = Shop::new(SMALL, 4);
    let unopened = refused(&mut shop, |l| {
        l.words.fill(0);
        l.words[SMALL.n..SMALL.n + SMALL.r].fill(3 * INTERVAL);
    });
    assert_eq!(unopened, Unopened { refusal: Refusal::Wraps, read: SMALL.n + SMALL.r });
    assert!(unopened.to_string().ends_with("(12 random words are used up)"));
}

#[test]
fn the_last_number_is_never_given() {
    let mut shop = Shop::new(SMALL, 4);
    shop.table.next = u32::MAX - 1;
    assert_eq!(shop.ask(0).0, u32::MAX - 1);
    assert_eq!(refused(&mut shop, |_| ()).refusal, Refusal::Numbers);
}

#[test]
fn a_malformed_table_is_refused_everywhere() {
    let mut shop = Shop::new(SMALL, 4);
    let (_, query) = shop.ask(0);
    let line = shop.host(&query);
    shop.table.numbers[1] = 1;
    assert!(shop.table.is_malformed());
    assert_eq!(refused(&mut shop, |_| ()).refusal, Refusal::Table);
    assert_eq!(kept(&mut shop, |shop| shop.come(&line, 0)), Err(Refusal::Table));
    assert_eq!(kept(&mut shop, |shop| shop.table.discard_query(&mut shop.slab, 1)), Err(Refusal::Table));
}

#[test]
fn fresh_tables() {
    for (b, columns, answer) in
        [(3, 33, Refusal::Width), (15, 0, Refusal::Width), (8, 32, Refusal::Shape), (14, 513, Refusal::Shape)]
    {
        assert_eq!(Table::fresh(b, columns).unwrap_err(), answer);
    }
    let table = Table::fresh(8, 33).unwrap();
    let free = Table { b: 8, columns: 33, next: 1, numbers: [0; 64], digests: [0; 2048] };
    assert_eq!(table, free);
}

#[test]
fn each_refusal_says_its_number_and_its_meaning() {
    for (at, refusal) in Refusal::ALL.into_iter().enumerate() {
        let text = refusal.to_string();
        assert_eq!(text, format!("{}: {}", at + 1, refusal.meaning()));
        assert!(refusal.meaning().len() > 15 && !refusal.meaning().ends_with('.'));
        let others = Refusal::ALL.into_iter().filter(|other| other.meaning() == refusal.meaning());
        assert_eq!(others.count(), 1, "no two mean the same");
    }
    assert_eq!(Refusal::Wraps.to_string(), "6: a query entry plus Δ is 2^32 or more at one of the four positions");
}
