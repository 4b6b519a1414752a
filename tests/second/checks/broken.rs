//! Calls broken on purpose. A call is drawn that would be accepted and then altered in some of the
//! ways that the table of numbers names; the first of these numbers in the order of the call's tests
//! must come back.

use super::library::{Call, Input};
use super::reversion::reversible;
use super::support::modulus;
use crate::plain::random::Random;
use crate::plain::refusals::{self, Tests};

/// Numbers of 32 bits that are no modulus: no prime. 46337, 65521 and 65537 are primes, and 65521^2
/// is the largest square of a prime that fits; from 4294967292 on no prime does.
pub const UNFIT_MODULI: [u64; 14] = [
    0,
    1,
    4,
    9,
    46_337 * 46_337,
    2_147_483_645,
    2_147_483_648,
    65_521 * 65_521,
    65_521 * 65_537,
    4_294_967_289,
    4_294_967_292,
    4_294_967_293,
    4_294_967_294,
    4_294_967_295,
];

pub const UNFIT_ORDERS: [u64; 6] = [0, 4097, 4098, 1 << 32, (1 << 32) + 1, u64::MAX];

/// Block lengths that route 2 does not take; some of them are short ones cut to fewer bits.
pub const UNFIT_BLOCKS: [u64; 8] =
    [0, 65, 66, 256 + 4, u32::MAX as u64, 1 << 32, (1 << 32) + 4, u64::MAX];

/// The largest order for which buffers are made as long as it asks.
const LARGEST_MADE: u64 = 4097;

impl Input {
    /// An input that the call accepts, with dirty buffers.
    pub fn draw(random: &mut Random, call: Call) -> Input {
        let (p, n, done) = (modulus(random), random.count(1, 8), random.below(64));
        let route = random.route();
        let block = random.block_of(route);
        let mut input = Input { route, block, p, n: n as u64, done, ..Input::default() };
        let (count, other_count) = (random.count(1, 9), random.count(0, 9));
        input.out = random.buffer(n);
        match call {
            Call::Compose => {
                input.outer = random.list(p, other_count);
                input.inner = random.list(p, count - 1);
            }
            Call::Reverse => input.inner = reversible(random, p, count),
            Call::Open => (),
            Call::Cycle => {
                input.inner = without_constant(random, p, count - 1);
                input.out = without_constant(random, p, n);
            }
        }
        input.lend(random, call);
        input
    }

    /// A dirty work buffer of the length that the call needs or more, if that can be made.
    pub fn lend(&mut self, random: &mut Random, call: Call) {
        if self.n <= LARGEST_MADE && call != Call::Open {
            let longer = random.pick(&[0, 1, 9]);
            self.work = random.buffer(call.needed(self) as usize + longer);
        }
    }

    /// Alters an accepted input so that each of these numbers has its reason.
    pub fn alter(&mut self, random: &mut Random, call: Call, broken: &[u32]) {
        for number in rising(broken) {
            match number {
                1 => self.route = random.pick(&[0, 5, 257, u64::from(u32::MAX)]),
                2 => self.p = random.pick(&UNFIT_MODULI),
                3 => self.alter_order(random),
                4 => self.outer.resize(random.pick(&[4097, 5000]), 0),
                5 => self.inner.resize(random.pick(&[4097, 5000]), 0),
                6 => self.out.resize(other_length(random, self.out.len()), 0),
                8 => self.put_too_large(random, call),
                9 => self.make_irreversible(random, broken.contains(&8)),
                10 => self.put_constant(random),
                11 => self.done = random.pick(&[64, 65, u64::from(u32::MAX)]),
                15 => self.put_unfit_block(random, broken.contains(&1)),
                _ => (),
            }
        }
        self.lend(random, call);
        if broken.contains(&7) {
            self.shorten_work(random, call);
        }
    }

    /// Names route 2 with a block length that it does not take. An unknown route stays, for which
    /// such a length is no reason.
    fn put_unfit_block(&mut self, random: &mut Random, unknown_route: bool) {
        self.block = Some(random.pick(&UNFIT_BLOCKS));
        if !unknown_route {
            self.route = 2;
        }
    }

    fn alter_order(&mut self, random: &mut Random) {
        self.n = random.pick(&UNFIT_ORDERS);
        if self.n <= LARGEST_MADE {
            self.out.resize(self.n as usize, 0);
        }
    }

    /// Puts a number of at least p into one of the lists that 8 names.
    fn put_too_large(&mut self, random: &mut Random, call: Call) {
        let other = match call {
            Call::Compose => &mut self.outer,
            Call::Cycle if !self.out.is_empty() => &mut self.out,
            _ => &mut self.inner,
        };
        if random.once_in(2) {
            put_too_large(random, self.p, other);
        } else {
            put_too_large(random, self.p, &mut self.inner);
        }
    }

    /// Makes the series have no reverse: by its constant term, or from order 2 by its linear
    /// coefficient, which is not touched where a coefficient is too large.
    fn make_irreversible(&mut self, random: &mut Random, too_large: bool) {
        if self.n < 2 || too_large || random.once_in(2) {
            put_constant(random, self.p, &mut self.inner);
        } else if self.inner.len() > 9 || random.once_in(2) {
            self.inner[1] = 0;
        } else {
            self.inner.truncate(random.count(0, 1));
        }
    }

    /// Gives the cycle list or the running series a constant term.
    fn put_constant(&mut self, random: &mut Random) {
        let either =
            if self.out.is_empty() || random.once_in(2) { &mut self.inner } else { &mut self.out };
        put_constant(random, self.p, either);
    }

    /// Makes the work buffer too short. With order 0 and an empty list none would be.
    fn shorten_work(&mut self, random: &mut Random, call: Call) {
        if call.needed(self) == 0 {
            let counted = if call == Call::Compose { &mut self.outer } else { &mut self.inner };
            counted.push(0);
        }
        let longest = call.needed(self) - 1;
        let places = random.pick(&[0, longest / 2, longest]).min(1 << 20);
        self.work = random.buffer(places as usize);
    }
}

/// A list of this many places without constant term.
pub fn without_constant(random: &mut Random, p: u64, count: usize) -> Vec<u32> {
    let mut list = random.list(p, count);
    list[..count.min(1)].fill(0);
    list
}

/// Makes the constant term something other than zero, if it is not yet; p may be no modulus.
fn put_constant(random: &mut Random, p: u64, list: &mut Vec<u32>) {
    list.resize(list.len().max(1), 0);
    if list[0] == 0 {
        list[0] = random.non_zero(p.max(2));
    }
}

/// Some of the numbers, each once in eight times.
pub fn some(random: &mut Random, numbers: &[u32]) -> Vec<u32> {
    let chosen = numbers.iter().filter(|_| random.once_in(8));
    chosen.copied().collect()
}

/// The number that comes back of a call with these tests that is broken in these ways.
pub fn first(tests: Tests, broken: &[u32]) -> u32 {
    refusals::first(tests, |number| broken.contains(&number))
}

/// The numbers in rising order. A call is altered in it, since a later alteration may build on an
/// earlier one: 6 alters the places that 3 sets.
pub fn rising(numbers: &[u32]) -> Vec<u32> {
    let mut sorted = numbers.to_vec();
    sorted.sort_unstable();
    sorted
}

/// Puts a number of at least p into the list.
pub fn put_too_large(random: &mut Random, p: u64, list: &mut Vec<u32>) {
    if list.is_empty() {
        list.push(0);
    }
    let place = random.count(0, list.len() - 1);
    let largest = u64::from(u32::MAX);
    let number = random.pick(&[p, p + 1, largest]).min(largest);
    list[place] = number as u32;
}

/// A length other than n.
pub fn other_length(random: &mut Random, n: usize) -> usize {
    match n {
        0 => 1,
        _ => random.pick(&[0, n - 1, n + 1, 2 * n]),
    }
}
