//! Chains of cycles: a record of modulus, order and cycles done, and the running series, which lies
//! in the caller's buffer.

use super::calls::Answer;
use super::{products, refusals, routes, substitution};

#[derive(Clone, Copy, Debug, Default, PartialEq, Eq)]
pub struct Chain {
    pub modulus: u64,
    pub order: u64,
    pub done: u64,
}

impl Chain {
    /// Sets the running series to x; a refused opening returns a record of zeros.
    pub fn open(modulus: u64, order: u64, running: &mut [u32]) -> (Chain, Answer) {
        let number = refusals::open(modulus, order, running.len());
        let answer = Answer { number, weight: 0 };
        if number != 0 {
            return (Chain::default(), answer);
        }
        running.copy_from_slice(&products::places(&[0, 1], running.len()));
        (Chain { modulus, order, done: 0 }, answer)
    }

    /// Makes the running series S into S(C) for the cycle list C, by the route named, with this
    /// block length for route 2.
    pub fn cycle(
        self,
        route: u64,
        block: u64,
        list: &[u32],
        running: &mut [u32],
        work: &mut [u32],
    ) -> (Chain, Answer) {
        let Chain { modulus, order, done } = self;
        let number = refusals::cycle(route, block, modulus, order, done, list, running, work.len());
        if number != 0 {
            return (self, Answer { number, weight: 0 });
        }
        let places = running.len();
        let (value, weight) = routes::by_number(route, modulus, running, list, places, block);
        running.copy_from_slice(&value);
        work[..refusals::cycle_work_places(order, list.len()) as usize].fill(0);
        (Chain { done: done + 1, ..self }, Answer { number, weight })
    }
}

/// The composition of the cycles, the earliest outermost, as a whole polynomial, nothing cut. Its
/// degree is the product of theirs, so it is for few cycles or short ones.
pub fn composition(p: u64, cycles: &[Vec<u32>]) -> Vec<u32> {
    cycles.iter().fold(vec![0, 1], |outer, cycle| substitution::whole(p, &outer, cycle))
}
