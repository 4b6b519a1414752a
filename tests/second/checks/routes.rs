//! Each route gives the substitution, and the weight counted product by product is its rule's.

use super::library::Plain;
use super::support::{compose, weight, Case, Tally};
use crate::plain::calls::Answer;
use crate::plain::primes::LARGEST_PRIME;
use crate::plain::random::Random;
use crate::plain::{routes, substitution::substitution, weights};

const CASES: usize = 6000;

pub fn values_and_weights(tally: &mut Tally, random: &mut Random) {
    for _ in 0..CASES {
        let case = Case::draw(random, 20);
        let value = substitution(case.p, &case.f, &case.g, case.n);
        for route in 1..=4 {
            let weight = weight(route, case.p, case.f.len(), case.n);
            let found = compose::<Plain>(random, route, &case);
            let wanted = (Answer { number: 0, weight }, value.clone());
            tally.equal((route, &case), found, wanted);
        }
    }
}

/// Route 2 with every block length, for outer lists of up to five blocks.
pub fn block_lengths(tally: &mut Tally, random: &mut Random) {
    for length in 1..=64 {
        for _ in 0..CASES / 128 {
            let mut case = Case::draw(random, 12);
            let m = random.count(0, 5 * length);
            case.f = random.list(case.p, m);
            let found = routes::ranged(case.p, &case.f, &case.g, case.n, length);
            let value = substitution(case.p, &case.f, &case.g, case.n);
            let weight = weights::ranged(m as u64, case.n as u64, length as u64);
            tally.equal((length, &case), found, (value, weight));
        }
    }
}

/// A few larger cases, where each route has several levels.
pub fn larger_cases(tally: &mut Tally, random: &mut Random) {
    for p in [2, 3, 7, 2_147_483_647, LARGEST_PRIME] {
        for (n, m) in [(64, 63), (65, 200), (150, 40), (1, 300), (200, 2)] {
            let case = Case { p, n, f: random.list(p, m), g: random.list(p, n) };
            let value = substitution(p, &case.f, &case.g, n);
            for route in 1..=4 {
                let found = routes::by_number(route, p, &case.f, &case.g, n, 4);
                let wanted = (value.clone(), weight(route, p, m, n));
                tally.equal((route, &case), found, wanted);
            }
        }
    }
}
