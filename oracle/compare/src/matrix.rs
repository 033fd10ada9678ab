//! plain_product and transpose.

use crate::face;
use crate::report::Entry;
use crate::rng::Rng;
use crate::subject::{damaged, every, random, Plan, Subject};

/// Dimensions at their ends and beyond.
const ENDS: [usize; 6] = [0, 1, 2, 4096, 4097, usize::MAX];

/// A product of dimensions that is small enough to be lent, else 0: the call is then refused anyway.
fn lendable(rows: usize, columns: usize) -> usize {
    match rows.checked_mul(columns) {
        Some(length) if length <= 1 << 24 => length,
        _ => 0,
    }
}

#[derive(Debug)]
pub struct Product {
    dimensions: [usize; 3],
    left: Vec<u32>,
    right: Vec<u32>,
    out: Vec<u32>,
}

impl Product {
    fn of(rng: &mut Rng, dimensions: [usize; 3], spare: usize) -> Product {
        let [r, m, c] = dimensions;
        let (left, right) = (rng.words(lendable(r, m)), rng.words(lendable(m, c)));
        Product { dimensions, left, right, out: rng.words(lendable(r, c) + spare) }
    }

    fn tests(&self) -> model::Tests<'_> {
        let [r, m, c] = self.dimensions;
        model::plain_product_tests(r, m, c, &self.left, &self.right, &self.out)
    }
}

impl Subject for Product {
    const NAME: &'static str = "plain_product";
    const LISTED: &'static [u32] = &[2];

    fn good(rng: &mut Rng) -> Product {
        let (dimensions, spare) = ([0; 3].map(|_| rng.size(6, 40)), rng.spare());
        Product::of(rng, dimensions, spare)
    }

    fn damage(&mut self, _: u32, rng: &mut Rng) {
        let at = rng.below(3);
        match rng.below(5) {
            0 => self.dimensions[at] = rng.bad_dimension(4096),
            1 => self.dimensions[at] = self.dimensions[at].saturating_add(1),
            2 => rng.other_length(&mut self.left),
            3 => rng.other_length(&mut self.right),
            _ => self.out.truncate(lendable(self.dimensions[0], self.dimensions[2]).saturating_sub(1)),
        }
    }

    fn run(&self, log: &mut Entry) {
        log.call(&self.tests().holding());
        let [r, m, c] = self.dimensions;
        let (mut ours, mut theirs) = (self.out.clone(), self.out.clone());
        let answer = face::plain_product(r, m, c, &self.left, &self.right, &mut ours);
        let expected = model::plain_product(r, m, c, &self.left, &self.right, &mut theirs);
        log.same((answer, &ours), (expected, &theirs), self);
        if expected == 0 {
            let mut rust = reference::plain_product(r, m, c, &self.left, &self.right);
            rust.extend(&self.out[r * c..]);
            log.rust(&ours, &rust, self);
        }
    }
}

pub fn product(plan: &Plan) -> Entry {
    let (mut log, mut rng) = plan.start::<Product>();
    every(&[1, 2], 3, |list| {
        let dimensions = [list[0], list[1], list[2]];
        let [r, m, c] = dimensions;
        every(&[0, 1, u32::MAX], r * m + m * c, |words| {
            let (left, right) = words.split_at(r * m);
            let (left, right) = (left.to_vec(), right.to_vec());
            Product { dimensions, left, right, out: rng.words(r * c + 1) }.run(&mut log);
        });
    });
    every(&ENDS, 3, |list| {
        // Of what isn't refused only thin cases: all three at 4096 would be 2^36 products.
        let work = list.iter().fold(1, |work: usize, &dimension| work.saturating_mul(dimension));
        if work <= 1 << 24 || list.iter().any(|&dimension| dimension > 4096) {
            Product::of(&mut rng, [list[0], list[1], list[2]], 0).run(&mut log);
        }
    });
    damaged::<Product>(&mut log, &mut rng);
    random::<Product>(&mut log, &mut rng, plan.calls);
    log
}

#[derive(Debug)]
pub struct Transpose {
    r: usize,
    c: usize,
    words: Vec<u32>,
    out: Vec<u32>,
}

impl Transpose {
    fn of(rng: &mut Rng, r: usize, c: usize, spare: usize) -> Transpose {
        let length = lendable(r, c);
        Transpose { r, c, words: rng.words(length), out: rng.words(length + spare) }
    }

    fn tests(&self) -> model::Tests<'_> {
        model::transpose_tests(self.r, self.c, &self.words, &self.out)
    }
}

impl Subject for Transpose {
    const NAME: &'static str = "transpose";
    const LISTED: &'static [u32] = &[2];

    fn good(rng: &mut Rng) -> Transpose {
        let (r, c, spare) = (rng.size(9, 70), rng.size(9, 70), rng.spare());
        Transpose::of(rng, r, c, spare)
    }

    fn damage(&mut self, _: u32, rng: &mut Rng) {
        match rng.below(6) {
            0 => self.r = rng.bad_dimension(4096),
            1 => self.c = rng.bad_dimension(4096),
            2 => self.r = self.r.saturating_add(1),
            3 => self.c = self.c.saturating_add(1),
            4 => rng.other_length(&mut self.words),
            _ => self.out.truncate(lendable(self.r, self.c).saturating_sub(1)),
        }
    }

    fn run(&self, log: &mut Entry) {
        log.call(&self.tests().holding());
        let (mut ours, mut theirs) = (self.out.clone(), self.out.clone());
        let answer = face::transpose(self.r, self.c, &self.words, &mut ours);
        let expected = model::transpose(self.r, self.c, &self.words, &mut theirs);
        log.same((answer, &ours), (expected, &theirs), self);
        if expected == 0 {
            let mut rust = reference::transpose(self.r, self.c, &self.words);
            rust.extend(&self.out[self.words.len()..]);
            log.rust(&ours, &rust, self);
        }
    }
}

pub fn transpose(plan: &Plan) -> Entry {
    let (mut log, mut rng) = plan.start::<Transpose>();
    for r in 1..=24 {
        for c in 1..=24 {
            Transpose::of(&mut rng, r, c, 0).run(&mut log);
            Transpose::of(&mut rng, r, c, 2).run(&mut log);
        }
    }
    every(&ENDS, 2, |list| Transpose::of(&mut rng, list[0], list[1], 1).run(&mut log));
    damaged::<Transpose>(&mut log, &mut rng);
    random::<Transpose>(&mut log, &mut rng, plan.calls);
    log
}
