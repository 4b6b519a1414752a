//! Orders around the powers of 2, where route 4 and the products change their methods, with outer
//! lists from one coefficient to many times the order, for moduli on both sides of 2^31. The value
//! is that of the second implementation's route 4, which takes about as long for any outer list.

use crate::checks::support::{weight, Case, Tally};
use crate::compare::composed;
use crate::plain::primes::LARGEST_PRIME;
use crate::plain::random::Random;
use crate::plain::routes;

const MODULI: [u64; 7] = [2, 3, 7, 65_537, 2_147_483_647, 2_147_483_659, LARGEST_PRIME];
const LONGEST_LIST: usize = 4096;

/// Up to this many terms, m products of n places by hand, routes 1 to 3 are tried beside route 4.
const FEW_TERMS: usize = 1 << 25;

/// The last order of which more outer lists are tried.
const SMALL: usize = 257;

/// The orders 2^k - 1, 2^k and 2^k + 1.
fn around(k: u32) -> [usize; 3] {
    let power = 1 << k;
    [power - 1, power, power + 1]
}

/// Counts of outer coefficients, from far below the order to far above it; for a small order its
/// neighbours too.
fn outer_counts(n: usize) -> Vec<usize> {
    let mut counts = vec![1, 2, 3, n / 8, n, 4 * n, 16 * n, LONGEST_LIST];
    if n <= SMALL {
        counts.extend([n - 1, n + 1]);
    }
    counts.retain(|m| (1..=LONGEST_LIST).contains(m));
    counts.sort_unstable();
    counts.dedup();
    counts
}

/// Lists whose places are all p - 1, the largest sums; or any places, of the inner list n without
/// constant term, or fewer or more.
fn lists(random: &mut Random, p: u64, n: usize, m: usize) -> Case {
    let largest = (p - 1) as u32;
    let (f, g) = match random.below(3) {
        0 => (vec![largest; m], vec![largest; n]),
        1 => (random.list(p, m), [vec![0], random.list(p, n - 1)].concat()),
        _ => {
            let count = random.count(1, n + 5);
            (random.list(p, m), random.list(p, count))
        }
    };
    Case { p, n, f, g }
}

/// Route 4 on one case, and the others where they are quick.
fn one(tally: &mut Tally, random: &mut Random, case: &Case) {
    let Case { p, n, f, g } = case;
    let (value, counted) = routes::kinoshita_li(*p, f, g, *n);
    composed(tally, random, 4, case, &value, counted);
    if f.len() * n * n <= FEW_TERMS {
        for route in 1..=3 {
            composed(tally, random, route, case, &value, weight(route, *p, f.len(), *n));
        }
    }
}

fn at_orders(tally: &mut Tally, random: &mut Random, powers: impl Iterator<Item = u32>) {
    for n in powers.flat_map(around) {
        for p in MODULI {
            for m in outer_counts(n) {
                let case = lists(random, p, n, m);
                one(tally, random, &case);
            }
        }
    }
}

/// Orders and counts at which route 4 halves its parts, once, twice or not at all, of an even and of an
/// odd number of places, with few rows and with as many as there can be.
const HALVED: [(usize, usize); 10] = [
    (1100, 4096),
    (1101, 1101),
    (2047, 2),
    (2048, 2048),
    (2201, 2200),
    (2303, 40),
    (3073, 3073),
    (4093, 4095),
    (4095, 1300),
    (4096, 18),
];

/// Route 4 there, for a modulus of each way to take remainders.
pub fn halved(tally: &mut Tally, random: &mut Random) {
    for (n, m) in HALVED {
        for p in [7, 2_147_483_647, LARGEST_PRIME] {
            let case = lists(random, p, n, m);
            let (value, counted) = routes::kinoshita_li(p, &case.f, &case.g, n);
            composed(tally, random, 4, &case, &value, counted);
        }
    }
}

pub fn small(tally: &mut Tally, random: &mut Random) {
    at_orders(tally, random, 1..=8);
}

pub fn large(tally: &mut Tally, random: &mut Random) {
    at_orders(tally, random, 9..=10);
}
