//! Each refusal of each call at both sides of its edge, against the second implementation. What
//! comes back with several reasons is checked by `checks::calls`.

use crate::checks::broken::UNFIT_BLOCKS;
use crate::checks::library::{Call, Input};
use crate::checks::support::{seen, Tally};
use crate::compare::same;
use crate::plain::primes::LARGEST_PRIME;
use crate::plain::random::Random;

const LARGEST_WORD: u64 = u32::MAX as u64;

/// 46337 and 65521 are primes, and so are the moduli that are accepted.
const MODULI: [(u64, u32); 22] = [
    (0, 2),
    (1, 2),
    (2, 0),
    (3, 0),
    (4, 2),
    (9, 2),
    (46_337 * 46_337, 2),
    (2_147_483_629, 0),
    (2_147_483_645, 2),
    (2_147_483_646, 2),
    (2_147_483_647, 0),
    (2_147_483_648, 2),
    (2_147_483_659, 0),
    (65_521 * 65_521, 2),
    (4_294_967_279, 0),
    (4_294_967_289, 2),
    (4_294_967_290, 2),
    (LARGEST_PRIME, 0),
    (4_294_967_292, 2),
    (4_294_967_293, 2),
    (4_294_967_294, 2),
    (LARGEST_WORD, 2),
];

const ORDERS: [(u64, u32); 8] = [
    (0, 3),
    (1, 0),
    (2, 0),
    (4096, 0),
    (4097, 3),
    (1 << 32, 3),
    ((1 << 32) + 3, 3),
    (usize::MAX as u64, 3),
];

/// A list of the input.
type Selected = fn(&mut Input) -> &mut Vec<u32>;

fn outer(input: &mut Input) -> &mut Vec<u32> {
    &mut input.outer
}

fn inner(input: &mut Input) -> &mut Vec<u32> {
    &mut input.inner
}

fn running(input: &mut Input) -> &mut Vec<u32> {
    &mut input.out
}

/// The edges of one call, around an accepted input with coefficients below 2.
struct Edges<'a> {
    tally: &'a mut Tally,
    random: &'a mut Random,
    call: Call,
    base: Input,
    /// The numbers that came back.
    returned: Vec<u32>,
}

impl Edges<'_> {
    /// The altered base, with a work buffer that is long enough, is answered by this number.
    fn at(&mut self, number: u32, alter: impl FnOnce(&mut Input)) {
        let mut input = self.base.clone();
        alter(&mut input);
        input.lend(self.random, self.call);
        self.answered(number, &input);
    }

    fn answered(&mut self, number: u32, input: &Input) {
        let left = same(self.tally, self.call, input, number);
        self.returned.push(left.answer.number);
    }

    /// The edges that all calls have: 2, 3 and 6.
    fn of_all_calls(&mut self) {
        for (p, number) in MODULI {
            self.at(number, |input| input.p = p);
        }
        for (n, number) in ORDERS {
            self.at(number, |input| {
                input.n = n;
                if n <= 4097 {
                    input.out.resize(n as usize, 0);
                }
            });
        }
        for (places, number) in [(0, 6), (1, 6), (2, 6), (3, 0), (4, 6), (4096, 6)] {
            self.at(number, |input| input.out.resize(places, 0));
        }
    }

    /// Number 1.
    fn of_routes(&mut self) {
        for (route, number) in [(0, 1), (1, 0), (2, 0), (3, 0), (4, 0), (5, 1), (LARGEST_WORD, 1)] {
            self.at(number, |input| input.route = route);
        }
    }

    /// Number 15, by route 2 alone.
    fn of_blocks(&mut self) {
        for route in 0..=5 {
            let (unknown, ranged) = ([0, 5].contains(&route), route == 2);
            for (block, unfit) in
                [(1, false), (64, false)].into_iter().chain(UNFIT_BLOCKS.map(|block| (block, true)))
            {
                let number = match (unknown, ranged && unfit) {
                    (true, _) => 1,
                    (_, true) => 15,
                    _ => 0,
                };
                self.at(number, |input| (input.route, input.block) = (route, Some(block)));
            }
        }
    }

    /// Number 4 or 5, of this list.
    fn of_length(&mut self, number: u32, list: Selected) {
        for (places, answered) in [(4095, 0), (4096, 0), (4097, number), (8192, number)] {
            self.at(answered, |input| list(input).resize(places, 1));
        }
    }

    /// Number 7: one place short and none, exact and longer, for short lists and for the longest.
    fn of_work(&mut self) {
        for (n, m) in [(1, 2), (3, 5), (3, 4096), (4096, 3)] {
            let mut input = self.base.clone();
            input.n = n as u64;
            input.out.resize(n, 0);
            let counted = if self.call == Call::Compose { outer } else { inner };
            counted(&mut input).resize(m, 1);
            let needed = self.call.needed(&input) as usize;
            for (places, number) in
                [(0, 7), (needed - 1, 7), (needed, 0), (needed + 1, 0), (needed + 1000, 0)]
            {
                input.work = self.random.buffer(places);
                self.answered(number, &input);
            }
        }
    }

    /// Number 8, at the first, the middle and the last place of this list. A largest coefficient at
    /// the first place is a constant term, for which the call may have a number of its own.
    fn of_coefficients(&mut self, list: Selected, constant: u32) {
        for p in [2, 7, 2_147_483_647, LARGEST_PRIME] {
            let count = list(&mut self.base).len();
            for place in [0, count / 2, count - 1] {
                let below = if place == 0 { constant } else { 0 };
                for (coefficient, number) in [(p - 1, below), (p, 8), (LARGEST_WORD, 8)] {
                    self.at(number, |input| {
                        input.p = p;
                        list(input)[place] = coefficient as u32;
                    });
                }
            }
        }
    }

    /// Each number of the call came back, and 0.
    fn all_returned(self) {
        for number in self.call.tests().iter().chain(&[0]) {
            let cases = self.returned.iter().filter(|&returned| returned == number).count();
            seen(self.tally, &format!("{:?} returned {number}", self.call), cases);
        }
    }
}

/// The edges around this base, with order 3 and p = 7.
fn around<'a>(tally: &'a mut Tally, random: &'a mut Random, call: Call, lists: Input) -> Edges<'a> {
    let base = Input { route: 1, p: 7, n: 3, ..lists };
    Edges { tally, random, call, base, returned: Vec::new() }
}

pub fn compose(tally: &mut Tally, random: &mut Random) {
    let (outer_list, inner_list) = (vec![1, 0, 1, 1, 1], vec![1, 1, 0, 1, 1]);
    let out = random.buffer(3);
    let lists = Input { outer: outer_list, inner: inner_list, out, ..Input::default() };
    let mut edges = around(tally, random, Call::Compose, lists);
    edges.of_all_calls();
    edges.of_routes();
    edges.of_blocks();
    edges.of_length(4, outer);
    edges.of_length(5, inner);
    edges.of_work();
    edges.of_coefficients(outer, 0);
    edges.of_coefficients(inner, 0);
    for list in [outer, inner] {
        edges.at(0, |input| list(input).clear());
    }
    edges.all_returned();
}

pub fn reverse(tally: &mut Tally, random: &mut Random) {
    let (series, out) = (vec![0, 1, 1, 0, 1], random.buffer(3));
    let lists = Input { inner: series, out, ..Input::default() };
    let mut edges = around(tally, random, Call::Reverse, lists);
    edges.of_all_calls();
    edges.of_length(5, inner);
    edges.of_work();
    edges.of_coefficients(inner, 9);
    for p in [2, 7, 2_147_483_647, LARGEST_PRIME] {
        for (n, series, number) in [
            (1, vec![], 0),
            (1, vec![0], 0),
            (1, vec![0, 0, 1], 0),
            (1, vec![1], 9),
            (1, vec![1, 1], 9),
            (2, vec![], 9),
            (2, vec![0], 9),
            (2, vec![0, 0, 1], 9),
            (2, vec![0, 1], 0),
            (2, vec![1, 1], 9),
            (4096, vec![0, 0, 1], 9),
        ] {
            edges.at(number, |input| {
                (input.p, input.n, input.inner) = (p, n, series);
                input.out.resize(n as usize, 9);
            });
        }
    }
    edges.all_returned();
}

pub fn open(tally: &mut Tally, random: &mut Random) {
    let out = random.buffer(3);
    let mut edges = around(tally, random, Call::Open, Input { out, ..Input::default() });
    edges.of_all_calls();
    edges.all_returned();
}

/// A record is a caller's own: a modulus, an order or a count of cycles may be forged.
pub fn cycle(tally: &mut Tally, random: &mut Random) {
    let (list, out) = (vec![0, 1, 1, 0, 1], vec![0, 1, 1]);
    let lists = Input { inner: list, out, done: 5, ..Input::default() };
    let mut edges = around(tally, random, Call::Cycle, lists);
    edges.of_all_calls();
    edges.of_routes();
    edges.of_blocks();
    edges.of_length(5, inner);
    edges.of_work();
    edges.of_coefficients(inner, 10);
    edges.of_coefficients(running, 10);
    edges.at(10, |input| (input.inner[0], input.out[0]) = (1, 1));
    edges.at(0, |input| input.inner.clear());
    edges.at(10, |input| {
        input.inner.clear();
        input.out[0] = 1;
    });
    for (done, number) in [(0, 0), (62, 0), (63, 0), (64, 11), (65, 11), (LARGEST_WORD, 11)] {
        edges.at(number, |input| input.done = done);
    }
    for (order, number) in [(0, 3), (1, 6), (2, 6), (4, 6), (4096, 6), (4097, 3)] {
        edges.at(number, |input| input.n = order);
    }
    edges.all_returned();
}
