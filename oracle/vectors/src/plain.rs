//! Plain product, transpose, Δ and rounding.

use crate::list::{agreed, Answer, By, Call, List};
use crate::random::Random;

pub fn product(list: &mut List, [r, m, c]: [usize; 3], left: &[u32], right: &[u32], out: &[u32]) -> Vec<u32> {
    let mut after = out.to_vec();
    let number = model::plain_product(r, m, c, left, right, &mut after);
    let call = Call::new(4, "plain product").plain("r", r).plain("m", m).plain("c", c);
    let call = call.buffer("left", left).buffer("right", right).buffer("out", out);
    if number != 0 {
        list.add(call, Answer::new(number).buffer(&after), By::Model);
        return after;
    }
    let sums = reference::plain_product(r, m, c, left, right);
    list.add(call, Answer::new(0).buffer(&agreed(&sums, out, &after)), By::Rust);
    sums
}

pub fn transpose(list: &mut List, [r, c]: [usize; 2], words: &[u32], out: &[u32]) -> Vec<u32> {
    let mut after = out.to_vec();
    let number = model::transpose(r, c, words, &mut after);
    let call = Call::new(5, "transpose").plain("r", r).plain("c", c).buffer("words", words).buffer("out", out);
    if number != 0 {
        list.add(call, Answer::new(number).buffer(&after), By::Model);
        return after;
    }
    let turned = reference::transpose(r, c, words);
    list.add(call, Answer::new(0).buffer(&agreed(&turned, out, &after)), By::Rust);
    turned
}

pub fn indicator(list: &mut List, b: u32) {
    let said = model::decided::calculate_query_indicator(b);
    let call = Call::new(13, "indicator").plain("b", b);
    if !(4..=14).contains(&b) {
        return list.add(call, Answer::new(said), By::Model);
    }
    assert_eq!(reference::calculate_query_indicator(b), said, "the Rust and the model differ");
    list.add(call, Answer::new(said), By::Rust);
}

fn rounded(list: &mut List, b: u32, u: u32) {
    let call = Call::new(14, "rounded").plain("b", b).plain("u", u);
    list.add(call, Answer::new(model::decided::rounded(b, u)), By::Model);
}

/// At a multiple of Δ, at Δ/2 beyond it and one more, and at the end of all words.
fn roundings(list: &mut List, random: &mut Random) {
    for b in [4, 14] {
        let delta = model::calculate_query_indicator(b);
        let multiple = random.below(1 << b) as u32 * delta;
        for more in [0, delta / 2, delta / 2 + 1] {
            rounded(list, b, multiple + more);
        }
        rounded(list, b, u32::MAX);
    }
    for b in [0, 1, 32, u32::MAX] {
        rounded(list, b, 0x8000_0001);
    }
}

pub fn calls(list: &mut List, random: &mut Random) {
    for _ in 0..10 {
        let dims: [usize; 3] = std::array::from_fn(|_| random.size(1, 5));
        let [r, m, c] = dims;
        product(list, dims, &random.words(r * m), &random.words(m * c), &random.words(r * c + 2));
        transpose(list, [r, c], &random.words(r * c), &random.words(r * c + 1));
    }
    for dims in [[0, 2, 2], [2, 2, 4097]] {
        product(list, dims, &random.words(4), &random.words(4), &random.words(4));
        transpose(list, [dims[0], dims[2]], &random.words(4), &random.words(4));
    }
    for (left, right, out) in [(3, 4, 4), (4, 5, 4), (4, 4, 3)] {
        product(list, [2, 2, 2], &random.words(left), &random.words(right), &random.words(out));
    }
    for (words, out) in [(7, 6), (6, 5)] {
        transpose(list, [2, 3], &random.words(words), &random.words(out));
    }
    for b in [4, 5, 6, 7, 8, 9, 10, 11, 12, 13, 14, 0, 1, 32, 33] {
        indicator(list, b);
    }
    roundings(list, random);
}
