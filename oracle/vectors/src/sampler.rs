//! The ternary sampler and its sister.

use crate::list::{agreed, Answer, By, Call, List};
use crate::random::Random;

const LARGEST: u32 = 1_431_655_765;

/// What is written and how many words are read, by the Rust where it samples at all, else by the model.
fn sampled(interval: u32, words: &[u32], out: &[u32]) -> (u32, usize, Vec<u32>, By) {
    let mut after = out.to_vec();
    let said = model::sample_from_uniform_ternary_dist(interval, words, &mut after);
    if said.number != 0 || out.is_empty() {
        return (said.number, said.read, after, By::Model);
    }
    let rust = reference::sample_from_uniform_ternary_dist(interval, words, out.len());
    let (values, read) = rust.expect("the model found enough words");
    assert_eq!(read, said.read, "the Rust and the model differ");
    (0, read, agreed(&values, out, &after), By::Rust)
}

fn sample(list: &mut List, interval: u32, words: &[u32], out: &[u32]) {
    let (number, read, after, by) = sampled(interval, words, out);
    let call = Call::new(6, "sample").plain("interval", interval).buffer("words", words).buffer("out", out);
    list.add(call, Answer::new(number).value(read).buffer(&after), by);
}

/// It gives no number: its line begins with where the unread tail starts.
fn sister(list: &mut List, interval: u32, words: &[u32], out: &[u32]) {
    let (_, read, after, by) = sampled(interval, words, out);
    let mut again = out.to_vec();
    let unread = model::sample_and_return_unread(interval, words, &mut again);
    assert_eq!((words.len() - unread.len(), &again), (read, &after), "sampler and sister differ");
    let call = Call::new(7, "sister").plain("interval", interval).buffer("words", words).buffer("out", out);
    list.add(call, Answer::new(read).buffer(&after), by);
}

/// The words at the edges of the three parts.
fn edges(i: u32) -> Vec<u32> {
    let mut words = vec![0, i, i + 1, 2 * i, 2 * i + 1, 3 * i];
    words.extend((3 * i).checked_add(1));
    words.push(u32::MAX);
    words
}

pub fn calls(list: &mut List, random: &mut Random) {
    for interval in [1, 5, 1000, LARGEST] {
        sample(list, interval, &edges(interval), &random.words(6));
    }
    for turn in 0..16 {
        // About one word in four is skipped.
        let interval = random.size(1, 100) as u32;
        let words: Vec<u32> = (0..24).map(|_| random.below(4 * u64::from(interval)) as u32).collect();
        let wanted = random.size(1, 10);
        let call = if turn % 2 == 0 { sample } else { sister };
        call(list, interval, &words, &random.words(wanted));
    }
    for call in [sample, sister] {
        call(list, LARGEST, &[1, 2], &[]);
        call(list, 0, &[], &random.words(2));
        call(list, LARGEST + 1, &[0; 4], &random.words(2));
        call(list, 5, &[0, 16, 5], &random.words(3));
    }
}
