//! The calls that are checked, those of the second implementation or those of the linked library,
//! and a call as data: what it is given and what it leaves. The job program, likewise.

use crate::plain::calls::{self, Answer};
use crate::plain::chain::Chain;
use crate::plain::refusals::{self, Tests};
use crate::plain::{job, render, routes, weights};
use std::fmt::{Debug, Formatter, Result};

/// The calls with the buffers they are lent. A route, a modulus, the cycles done and an index of the
/// table fit in 32 bits. Compose and a cycle are two calls each: one takes a block length, and where
/// there is none the other is made.
pub trait Library {
    fn compose(
        route: u64,
        block: Option<u64>,
        p: u64,
        n: u64,
        f: &[u32],
        g: &[u32],
        out: &mut [u32],
        work: &mut [u32],
    ) -> Answer;

    fn reverse(p: u64, n: u64, g: &[u32], out: &mut [u32], work: &mut [u32]) -> Answer;

    fn open(p: u64, n: u64, running: &mut [u32]) -> (Chain, Answer);

    fn cycle(
        chain: Chain,
        route: u64,
        block: Option<u64>,
        list: &[u32],
        running: &mut [u32],
        work: &mut [u32],
    ) -> (Chain, Answer);

    /// The number, and the prime at this index of the table or 0.
    fn table(index: u64) -> (u32, u32);

    /// The number, and the count of bytes written from place 0 of the text buffer.
    fn render(number: u32, n: u64, weight: u64, list: &[u32], text: &mut [u8]) -> (u32, u64);
}

/// The job program.
pub trait Program {
    /// The bytes that it prints for a file.
    fn answer(file: &[u8]) -> Vec<u8>;
}

/// The second implementation.
pub struct Plain;

impl Library for Plain {
    fn compose(
        route: u64,
        block: Option<u64>,
        p: u64,
        n: u64,
        f: &[u32],
        g: &[u32],
        out: &mut [u32],
        work: &mut [u32],
    ) -> Answer {
        calls::compose(route, given(block), p, n, f, g, out, work)
    }

    fn reverse(p: u64, n: u64, g: &[u32], out: &mut [u32], work: &mut [u32]) -> Answer {
        calls::reverse(p, n, g, out, work)
    }

    fn open(p: u64, n: u64, running: &mut [u32]) -> (Chain, Answer) {
        Chain::open(p, n, running)
    }

    fn cycle(
        chain: Chain,
        route: u64,
        block: Option<u64>,
        list: &[u32],
        running: &mut [u32],
        work: &mut [u32],
    ) -> (Chain, Answer) {
        chain.cycle(route, given(block), list, running, work)
    }

    fn table(index: u64) -> (u32, u32) {
        calls::table(index)
    }

    fn render(number: u32, n: u64, weight: u64, list: &[u32], text: &mut [u8]) -> (u32, u64) {
        render::render(number, n, weight, list, text)
    }
}

/// The block length, or the one where none is given.
fn given(block: Option<u64>) -> u64 {
    block.unwrap_or(routes::BLOCK_LENGTH)
}

impl Program for Plain {
    fn answer(file: &[u8]) -> Vec<u8> {
        job::run(file)
    }
}

/// What a call is given. The inner list is the one that 5 names, so in reverse the series and in a
/// cycle the cycle list; the output is the one that 6 names, so in a chain the running series. The
/// chain record of a cycle is p, n and the cycles done. Without a block length the call that takes
/// none is made.
#[derive(Clone, Default)]
pub struct Input {
    pub route: u64,
    pub block: Option<u64>,
    pub p: u64,
    pub n: u64,
    pub done: u64,
    pub outer: Vec<u32>,
    pub inner: Vec<u32>,
    pub out: Vec<u32>,
    pub work: Vec<u32>,
}

impl Debug for Input {
    /// Shows all but the content of the work buffer.
    fn fmt(&self, formatter: &mut Formatter) -> Result {
        let shown = (&self.outer, &self.inner, &self.out, self.work.len());
        let numbers = (self.route, self.block, self.p, self.n, self.done);
        write!(formatter, "{numbers:?} {shown:?}")
    }
}

impl Input {
    /// The weight by the rule of the route, for an outer list of m places; where no block length is
    /// given it is 4.
    pub fn weight(&self, m: usize) -> u64 {
        weights::by_number(self.route, self.p, m as u64, self.n, self.block.unwrap_or(4))
    }
}

/// What a call leaves: its answer, the chain record it gives back (zeros where it gives none) and
/// the buffers.
#[derive(PartialEq)]
pub struct Left {
    pub answer: Answer,
    pub chain: Chain,
    pub out: Vec<u32>,
    pub work: Vec<u32>,
}

impl Debug for Left {
    /// Shows of the work buffer its length and how many of its first places are zero.
    fn fmt(&self, formatter: &mut Formatter) -> Result {
        let zeros = self.work.iter().take_while(|&&place| place == 0).count();
        let shown = (self.answer, self.chain, &self.out);
        write!(formatter, "{shown:?} work of {} places, {zeros} zeros", self.work.len())
    }
}

#[derive(Clone, Copy, Debug, PartialEq)]
pub enum Call {
    Compose,
    Reverse,
    Open,
    Cycle,
}

impl Call {
    pub const ALL: [Call; 4] = [Call::Compose, Call::Reverse, Call::Open, Call::Cycle];

    /// The numbers of the refusals that the call can meet, in the order of its tests.
    pub fn tests(self) -> Tests {
        match self {
            Call::Compose => refusals::COMPOSE,
            Call::Reverse => refusals::REVERSE,
            Call::Open => refusals::OPEN,
            Call::Cycle => refusals::CYCLE,
        }
    }

    /// The work places that the call needs: 128n + 8m, in a cycle 144n + 8m.
    pub fn needed(self, input: &Input) -> u64 {
        let (of_order, m) = match self {
            Call::Compose => (128, input.outer.len()),
            Call::Reverse => (128, input.inner.len()),
            Call::Open => (0, 0),
            Call::Cycle => (144, input.inner.len()),
        };
        input.n.saturating_mul(of_order).saturating_add(8 * m as u64)
    }

    /// Makes the call on copies of the buffers.
    pub fn make<L: Library>(self, input: &Input) -> Left {
        let Input { route, block, p, n, done, outer, inner, mut out, mut work } = input.clone();
        let record = Chain { modulus: p, order: n, done };
        let without_record = |answer| (Chain::default(), answer);
        let (chain, answer) = match self {
            Call::Compose => {
                without_record(L::compose(route, block, p, n, &outer, &inner, &mut out, &mut work))
            }
            Call::Reverse => without_record(L::reverse(p, n, &inner, &mut out, &mut work)),
            Call::Open => L::open(p, n, &mut out),
            Call::Cycle => L::cycle(record, route, block, &inner, &mut out, &mut work),
        };
        Left { answer, chain, out, work }
    }

    /// What an accepted call leaves with this output and this weight: the work places that it needs
    /// are zero and later ones as before; a cycle is counted.
    pub fn accepted(self, input: &Input, value: Vec<u32>, weight: u64) -> Left {
        let needed = self.needed(input) as usize;
        let opened = Chain { modulus: input.p, order: input.n, done: 0 };
        let chain = match self {
            Call::Compose | Call::Reverse => Chain::default(),
            Call::Open => opened,
            Call::Cycle => Chain { done: input.done + 1, ..opened },
        };
        let work = [vec![0; needed], input.work[needed..].to_vec()].concat();
        Left { answer: Answer { number: 0, weight }, chain, out: value, work }
    }

    /// What a call leaves that is refused with this number: the buffers and the record as they were,
    /// a refused opening a record of zeros.
    pub fn refused(self, input: &Input, number: u32) -> Left {
        let chain = match self {
            Call::Cycle => Chain { modulus: input.p, order: input.n, done: input.done },
            _ => Chain::default(),
        };
        let (out, work) = (input.out.clone(), input.work.clone());
        Left { answer: Answer { number, weight: 0 }, chain, out, work }
    }
}
