//! calculate_query_indicator and rounded, which give no number. Where b is none of 01's, the library is held to what was
//! decided, and not to the model.

use crate::face;
use crate::report::Entry;
use crate::rng::Rng;
use crate::subject::{random, Plan, Subject};

#[derive(Debug)]
pub struct Indicator {
    b: u32,
}

impl Subject for Indicator {
    const NAME: &'static str = "calculate_query_indicator";
    const LISTED: &'static [u32] = &[];

    fn good(rng: &mut Rng) -> Indicator {
        let b = match rng.below(4) {
            0 => rng.width(),
            1 => rng.word(),
            _ => rng.below(70) as u32,
        };
        Indicator { b }
    }

    fn damage(&mut self, _: u32, _: &mut Rng) {}

    fn run(&self, log: &mut Entry) {
        log.call(&[]);
        let answer = face::calculate_query_indicator(self.b);
        log.same(answer, model::decided::calculate_query_indicator(self.b), self);
        if (4..=14).contains(&self.b) {
            log.rust(answer, reference::calculate_query_indicator(self.b), self);
        }
    }
}

pub fn indicator(plan: &Plan) -> Entry {
    let (mut log, mut rng) = plan.start::<Indicator>();
    for b in (0..=300).chain([1 << 16, 1 << 31, u32::MAX]) {
        Indicator { b }.run(&mut log);
    }
    random::<Indicator>(&mut log, &mut rng, plan.calls);
    log
}

#[derive(Debug)]
pub struct Rounded {
    b: u32,
    u: u32,
}

impl Subject for Rounded {
    const NAME: &'static str = "rounded";
    const LISTED: &'static [u32] = &[];

    fn good(rng: &mut Rng) -> Rounded {
        let b = Indicator::good(rng).b;
        Rounded { b, u: rng.word() }
    }

    fn damage(&mut self, _: u32, _: &mut Rng) {}

    fn run(&self, log: &mut Entry) {
        log.call(&[]);
        log.same(face::rounded(self.b, self.u), model::decided::rounded(self.b, self.u), self);
    }
}

pub fn rounded(plan: &Plan) -> Entry {
    let (mut log, mut rng) = plan.start::<Rounded>();
    for b in 4..=14 {
        let delta = 1u32 << (32 - b);
        // Around each multiple of Δ and around each half.
        for quotient in 0..1u32 << b {
            for remainder in [0, 1, delta / 2 - 1, delta / 2, delta / 2 + 1, delta - 1] {
                Rounded { b, u: quotient * delta + remainder }.run(&mut log);
            }
        }
    }
    for b in (0..=40).chain([255, 1 << 31, u32::MAX]) {
        for shift in 0..32 {
            for u in [1u32 << shift, (1 << shift) - 1, u32::MAX - (1 << shift), u32::MAX >> shift] {
                Rounded { b, u }.run(&mut log);
            }
        }
    }
    random::<Rounded>(&mut log, &mut rng, plan.calls);
    log
}
