//! The table and the slab that the list has at hand, as the program keeps them: one slab for all tables, of which an
//! open, a reply or a discard is lent the first words.

use crate::list::{Answer, By, Call, List};
use model::Table;

/// The words of the program's slab.
const SLAB: usize = 4608;

pub struct State {
    pub table: Table,
    pub slab: Vec<u32>,
}

/// What an open is lent, but for the slab.
#[derive(Clone)]
pub struct Asked {
    pub n: usize,
    pub r: usize,
    pub matrix: Vec<u32>,
    pub hint: Vec<u32>,
    pub interval: u32,
    pub positions: [u32; 4],
    pub digest: [u8; 32],
    pub words: Vec<u32>,
    pub secret: Vec<u32>,
    pub error: Vec<u32>,
    pub query: Vec<u32>,
}

/// What an open gives: its number, the ticket, the words read, and the buffer of the query at exit.
pub struct Opened {
    pub number: u32,
    pub ticket: u32,
    pub read: usize,
    pub query: Vec<u32>,
}

fn with_table(answer: Answer, t: &Table) -> Answer {
    answer.value(t.b).value(t.columns).value(t.next).buffer(&t.numbers).buffer(&t.digests)
}

impl State {
    /// The list's own start, whatever calls stand before it: the table that a refused `fresh` gives, and a slab of sevens.
    pub fn start(list: &mut List) -> State {
        let mut state = State { table: model::fresh(0, 0).table, slab: Vec::new() };
        state.fresh(list, 0, 0);
        state.lay(list, 7);
        state
    }

    /// What the table needs of the slab.
    pub fn lent(&self) -> usize {
        64 * self.table.columns
    }

    pub fn fresh(&mut self, list: &mut List, b: u32, columns: usize) {
        let made = model::fresh(b, columns);
        self.table = made.table;
        let call = Call::new(17, "fresh").plain("b", b).plain("columns", columns);
        list.add(call, with_table(Answer::new(made.number), &self.table), By::Model);
    }

    pub fn is_malformed(&self, list: &mut List) {
        list.add(Call::new(18, "is malformed"), Answer::new(model::is_malformed(&self.table)), By::Model);
    }

    pub fn open(&mut self, list: &mut List, lent: usize, a: &Asked, by: By) -> Opened {
        let (mut secret, mut error, mut query) = (a.secret.clone(), a.error.clone(), a.query.clone());
        let slab = &mut self.slab[..lent];
        let said = model::query_for_4_wise_xor_filter(
            &mut self.table,
            slab,
            a.n,
            a.r,
            &a.matrix,
            &a.hint,
            a.interval,
            a.positions,
            &a.digest,
            &a.words,
            &mut secret,
            &mut error,
            &mut query,
        );
        let call =
            Call::new(19, "open").plain("slab", lent).plain("n", a.n).plain("r", a.r).plain("interval", a.interval);
        let call = a.positions.iter().fold(call, |call, p| call.plain("at", p));
        let call = call.buffer("matrix", &a.matrix).buffer("hint", &a.hint).buffer("digest", &a.digest);
        let call = call.buffer("words", &a.words).buffer("secret", &a.secret).buffer("error", &a.error);
        let call = call.buffer("query", &a.query);
        let answer = with_table(Answer::new(said.number).value(said.ticket).value(said.read), &self.table);
        let answer = answer.buffer(&secret).buffer(&error).buffer(&query).buffer(&self.slab[..lent]);
        list.add(call, answer, by);
        Opened { number: said.number, ticket: said.ticket, read: said.read, query }
    }

    /// The number, and the value that was written.
    #[allow(clippy::too_many_arguments)] // the entry's own, and who answers
    pub fn reply(
        &mut self,
        list: &mut List,
        lent: usize,
        ticket: u32,
        response: &[u32],
        masks: &[u32],
        value: &[u8],
        by: By,
    ) -> (u32, Vec<u8>) {
        let mut after = value.to_vec();
        let said =
            model::process_response(&mut self.table, &mut self.slab[..lent], ticket, response, masks, &mut after);
        let call = Call::new(20, "reply").plain("slab", lent).plain("ticket", ticket);
        let call = call.buffer("response", response).buffer("masks", masks).buffer("value", value);
        let answer = with_table(Answer::new(said.number).value(said.length), &self.table);
        list.add(call, answer.buffer(&after).buffer(&self.slab[..lent]), by);
        (said.number, after[..said.length].to_vec())
    }

    pub fn discard(&mut self, list: &mut List, lent: usize, ticket: u32) -> u32 {
        let number = model::discard_query(&mut self.table, &mut self.slab[..lent], ticket);
        let call = Call::new(21, "discard").plain("slab", lent).plain("ticket", ticket);
        list.add(call, with_table(Answer::new(number), &self.table).buffer(&self.slab[..lent]), By::Model);
        number
    }

    /// Not a call: one value in every word of the slab.
    fn lay(&mut self, list: &mut List, value: u32) {
        self.slab = vec![value; SLAB];
        list.add(Call::new(23, "slab").plain("value", value), Answer::new("slab").buffer(&self.slab), By::Model);
    }

    /// Not a call: the table's b, columns and next, a slot's number and a byte of the digests. A slot of 64 and a
    /// byte of 2048 leave them as they are.
    pub fn set(&mut self, list: &mut List, to: Set) {
        let t = &mut self.table;
        (t.b, t.columns, t.next) = (to.b, to.columns, to.next);
        t.numbers.get_mut(to.slot).into_iter().for_each(|number| *number = to.number);
        t.digests.get_mut(to.at).into_iter().for_each(|byte| *byte = to.byte);
        let call = Call::new(22, "set").plain("b", to.b).plain("columns", to.columns).plain("next", to.next);
        let call = call.plain("slot", to.slot).plain("number", to.number).plain("at", to.at).plain("byte", to.byte);
        list.add(call, with_table(Answer::new("set"), &self.table), By::Model);
    }
}

#[derive(Clone, Copy)]
pub struct Set {
    pub b: u32,
    pub columns: usize,
    pub next: u32,
    pub slot: usize,
    pub number: u32,
    pub at: usize,
    pub byte: u8,
}
