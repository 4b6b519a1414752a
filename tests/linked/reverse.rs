//! Reverse series: all short ones, every kind of order and the largest.

use crate::checks::library::{Call, Input};
use crate::checks::reversion::{identity, reversible};
use crate::checks::support::{lists_up_to, modulus, seen, weight, Case, Tally};
use crate::compare::{composed, reversed, same};
use crate::linked::Linked;
use crate::plain::primes::{LARGEST_PRIME, LARGE_PRIMES};
use crate::plain::random::Random;
use crate::plain::{field, refusals, reversion, routes};

const RANDOM_CASES: usize = 40;
const LARGEST_ORDER: usize = 4096;

/// Every series of at most five places, for p up to 5 and n up to 5.
pub fn exhaustive(tally: &mut Tally, random: &mut Random) {
    let (mut accepted, mut refused) = (0, 0);
    for p in [2, 3, 5] {
        for g in lists_up_to(p, 5) {
            for n in 1..=5 {
                let (inner, out) = (g.clone(), random.buffer(n));
                let mut input = Input { p: p.into(), n: n as u64, inner, out, ..Input::default() };
                input.lend(random, Call::Reverse);
                let number = refusals::reverse(p.into(), n as u64, &g, n, input.work.len());
                same(tally, Call::Reverse, &input, number);
                accepted += usize::from(number == 0);
                refused += usize::from(number == 9);
            }
        }
    }
    seen(tally, "series with a reverse", accepted);
    seen(tally, "series without", refused);
}

/// A series with a reverse, against the second implementation.
fn one(tally: &mut Tally, random: &mut Random, p: u64, n: usize, count: usize) {
    let g = reversible(random, p, count);
    reversed(tally, random, p, n, &g, &reversion::reverse(p, &g, n));
}

/// Every order up to 40, and those around larger powers of 2, with short, whole and longer series.
pub fn orders(tally: &mut Tally, random: &mut Random) {
    for p in [2, 3, 5, 7, 2_147_483_647].into_iter().chain(LARGE_PRIMES) {
        for n in (1..=40).chain(63..=66).chain(127..=130) {
            for count in [2, 3, n, n + 1, n + 5] {
                one(tally, random, p, n, count);
            }
        }
    }
}

pub fn random_series(tally: &mut Tally, random: &mut Random) {
    for _ in 0..RANDOM_CASES {
        let (p, n) = (modulus(random), random.count(1, 300));
        let count = random.count(2, n + 5);
        one(tally, random, p, n, count);
    }
}

/// Order 4096. The second implementation is quick for short series. The reverse of ax/(1 - bx), all
/// of whose places are in use, is x/(a + bx).
pub fn largest_order(tally: &mut Tally, random: &mut Random) {
    for p in [2, LARGEST_PRIME] {
        one(tally, random, p, LARGEST_ORDER, 4);
        let (a, b) = (random.non_zero(p), random.non_zero(p));
        let inverse = field::inverse(p, a);
        let ratio = field::subtract(p, 0, field::multiply(p, b, inverse));
        let g = geometric(p, a, b, LARGEST_ORDER);
        let h = geometric(p, inverse, ratio, LARGEST_ORDER);
        reversed(tally, random, p, LARGEST_ORDER, &g, &h);
    }
}

/// x·first/(1 - ratio·x) modulo x^n.
fn geometric(p: u64, first: u32, ratio: u32, n: usize) -> Vec<u32> {
    let next = |&coefficient: &u32| Some(field::multiply(p, coefficient, ratio));
    let coefficients = std::iter::successors(Some(first), next);
    std::iter::once(0).chain(coefficients).take(n).collect()
}

/// Order 4096 and a series of 4096 random places. The second implementation's own reverse takes too
/// long there; its route 4 and that of the library confirm g(h) = x and h(g) = x.
pub fn largest_of_both(tally: &mut Tally, random: &mut Random) {
    let (p, n) = (LARGEST_PRIME, LARGEST_ORDER);
    let g = reversible(random, p, n);
    let mut input = Input { p, n: n as u64, inner: g.clone(), ..Input::default() };
    input.out = random.buffer(n);
    input.lend(random, Call::Reverse);
    let left = Call::Reverse.make::<Linked>(&input);
    let h = left.out.clone();
    tally.equal("4096 places", left, Call::Reverse.accepted(&input, h.clone(), 0));
    let (value, _) = routes::kinoshita_li(p, &g, &h, n);
    tally.equal("g(h)", (value, h[0]), (identity(n), 0));
    let case = Case { p, n, f: h, g };
    composed(tally, random, 4, &case, &identity(n), weight(4, p, n, n));
}
