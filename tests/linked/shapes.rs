//! Every route on shapes of every kind.

use crate::checks::support::{weight, Case, Tally};
use crate::compare::{composed, composed_in_blocks};
use crate::plain::field;
use crate::plain::primes::{LARGEST_PRIME, LARGE_PRIMES};
use crate::plain::products::places;
use crate::plain::random::Random;
use crate::plain::routes::{self, by_number, BLOCK_LENGTH};
use crate::plain::substitution::substitution;

/// The inner lists of one order: without and with a constant term, empty, longer than n.
fn inner_lists(random: &mut Random, p: u64, n: usize) -> [Vec<u32>; 4] {
    let count = random.count(1, n);
    let mut without = random.list(p, count);
    without[0] = 0;
    let mut with = random.list(p, count);
    with[0] = random.non_zero(p);
    let longer = n + random.count(1, 5);
    [without, with, Vec::new(), random.list(p, longer)]
}

/// All routes on one case: the value is the substitution by its definition, the weight the one
/// that the second implementation counts product by product.
fn all_routes(tally: &mut Tally, random: &mut Random, case: &Case) {
    let Case { p, n, f, g } = case;
    let value = substitution(*p, f, g, *n);
    for number in 1..=4 {
        let (_, counted) = by_number(number, *p, f, g, *n, BLOCK_LENGTH);
        composed(tally, random, number, case, &value, counted);
    }
}

pub fn every_small(tally: &mut Tally, random: &mut Random) {
    for p in [2, 3, 5, 7] {
        for n in 1..=20 {
            for m in 0..=20 {
                for g in inner_lists(random, p, n) {
                    let f = random.list(p, m);
                    all_routes(tally, random, &Case { p, n, f, g });
                }
            }
        }
    }
}

pub fn random(tally: &mut Tally, random: &mut Random) {
    for _ in 0..60 {
        let case = Case::draw(random, 300);
        let (value, _) = routes::horner(case.p, &case.f, &case.g, case.n);
        for number in 1..=4 {
            let (_, counted) = by_number(number, case.p, &case.f, &case.g, case.n, BLOCK_LENGTH);
            composed(tally, random, number, &case, &value, counted);
        }
        let block = random.block();
        composed_in_blocks(tally, random, block, &case, &value);
    }
}

/// A list with few coefficients, so that the second implementation is quick.
fn sparse(random: &mut Random, p: u64) -> Vec<u32> {
    let top = random.count(1, 3);
    let mut list = vec![0; top + 1];
    list[0] = random.coefficient(p);
    list[top] = random.non_zero(p);
    list
}

/// All routes against Horner's rule and the rule of each weight.
fn by_rule(tally: &mut Tally, random: &mut Random, case: &Case, numbers: &[u64]) {
    let Case { p, n, f, g } = case;
    let (value, _) = routes::horner(*p, f, g, *n);
    for &number in numbers {
        composed(tally, random, number, case, &value, weight(number, *p, f.len(), *n));
    }
}

pub fn largest_order(tally: &mut Tally, random: &mut Random) {
    for p in [2, 7, LARGEST_PRIME] {
        for m in [0, 1, 2, 3, 5, 9, 18] {
            let (f, g) = (random.list(p, m), sparse(random, p));
            by_rule(tally, random, &Case { p, n: 4096, f, g }, &[1, 2, 3, 4]);
        }
        let (f, g) = (random.list(p, 4), random.list(p, 4096));
        by_rule(tally, random, &Case { p, n: 4096, f, g }, &[1, 2, 3, 4]);
    }
}

pub fn longest_outer_list(tally: &mut Tally, random: &mut Random) {
    for p in [2, 3, 7, LARGEST_PRIME] {
        for n in 1..=5 {
            for m in [4093, 4096] {
                let (f, g) = (random.list(p, m), random.list(p, n));
                by_rule(tally, random, &Case { p, n, f, g }, &[1, 2, 3, 4]);
            }
        }
    }
}

pub fn largest_of_both(tally: &mut Tally, random: &mut Random) {
    for p in [3, LARGEST_PRIME] {
        let (f, g) = (random.list(p, 4096), sparse(random, p));
        by_rule(tally, random, &Case { p, n: 4096, f, g }, &[4]);
    }
}

/// Order 4096 and lists of 4096 random places by route 2, at several block lengths. Route 4 of the
/// second implementation, the quickest there, says the value.
pub fn largest_in_blocks(tally: &mut Tally, random: &mut Random) {
    let (p, n) = (LARGEST_PRIME, 4096);
    let case = Case { p, n, f: random.list(p, n), g: random.list(p, n) };
    let (value, _) = routes::kinoshita_li(p, &case.f, &case.g, n);
    for block in [1, 2, 3, 5, 64] {
        composed_in_blocks(tally, random, block, &case, &value);
    }
}

/// Primes above 2^31 on shapes of several kinds.
pub fn large_primes(tally: &mut Tally, random: &mut Random) {
    for p in LARGE_PRIMES {
        for n in [1, 2, 3, 5, 8, 17, 64] {
            for m in [0, 1, 2, 4, 5, 9, 33] {
                for g in inner_lists(random, p, n) {
                    let f = random.list(p, m);
                    all_routes(tally, random, &Case { p, n, f, g });
                }
            }
        }
    }
}

/// Lists whose coefficients are all p - 1.
fn all_largest(p: u64, n: usize, m: usize) -> Case {
    let largest = (p - 1) as u32;
    Case { p, n, f: vec![largest; m], g: vec![largest; n] }
}

pub fn largest_coefficients(tally: &mut Tally, random: &mut Random) {
    for p in LARGE_PRIMES {
        for (n, m) in [(1, 1), (2, 9), (33, 300), (300, 33), (257, 257)] {
            let case = all_largest(p, n, m);
            by_rule(tally, random, &case, &[1, 2, 3, 4]);
            let value = substitution(p, &case.f, &case.g, n);
            tally.equal((p, n, m, "closed form"), closed_form(p, n, m), value);
        }
    }
}

/// Large orders: the closed form, which needs no product, says the value.
pub fn largest_coefficients_closed(tally: &mut Tally, random: &mut Random) {
    for p in LARGE_PRIMES {
        for (n, numbers) in [(1024, &[1, 2, 3][..]), (4096, &[4])] {
            let (case, value) = (all_largest(p, n, n), closed_form(p, n, n));
            for &number in numbers {
                composed(tally, random, number, &case, &value, weight(number, p, n, n));
            }
        }
    }
}

/// f(g) modulo x^n where all coefficients, m of f and n of g, are -1. There g is -1/(1 - x) and f is
/// (z^m - 1)/(1 - z), so f(g) is (g^m - 1)(1 - x)/(2 - x), and g^m(1 - x) is (1 - x)^(1 - m) with the
/// sign of (-1)^m.
fn closed_form(p: u64, n: usize, m: usize) -> Vec<u32> {
    let mut value = places(&[1], n);
    for _ in 1..m {
        // over 1 - x
        for k in 1..n {
            value[k] = field::add(p, value[k], value[k - 1]);
        }
    }
    let half = field::inverse(p, 2);
    let mut before = 0;
    for (k, place) in value.iter_mut().enumerate() {
        let signed = if m % 2 == 0 { *place } else { field::subtract(p, 0, *place) };
        let less = [1, (p - 1) as u32].get(k).copied().unwrap_or(0);
        let numerator = field::subtract(p, signed, less);
        before = field::multiply(p, field::add(p, numerator, before), half);
        *place = before;
    }
    value
}
