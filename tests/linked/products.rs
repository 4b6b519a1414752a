//! Products of series, by routes 1 and 2 with few outer coefficients: at every order up to 300 and
//! around each larger size where a product may change its method, for primes on both sides of 2^30
//! and of 2^31.
//! The second implementation makes the powers of g that say the value, and every place of the
//! buffers is 2^32 - 1 before the call.

use crate::checks::support::{weight, Case, Tally};
use crate::compare::composed_over;
use crate::plain::field;
use crate::plain::primes::LARGEST_PRIME;
use crate::plain::products::{places, product};
use crate::plain::random::Random;

pub const MODULI: [u64; 8] =
    [2, 3, 65_537, 1_073_741_789, 1_073_741_827, 2_147_483_647, 2_147_483_659, LARGEST_PRIME];
const EVERY_ORDER: usize = 300;

/// The place that the buffers hold before a call.
const DIRTY: u32 = u32::MAX;

/// The inner lists of one order: all places p - 1, the largest sums; any places; few places.
fn inner_lists(random: &mut Random, p: u64, n: usize) -> [Vec<u32>; 3] {
    [vec![(p - 1) as u32; n], random.list(p, n), sparse(random, p, n)]
}

/// A list with a place at each end and two others, one of them at about half, where the square has
/// its last places.
fn sparse(random: &mut Random, p: u64, n: usize) -> Vec<u32> {
    let mut list = vec![0; n];
    for place in [0, n / 2, random.count(0, n - 1), n - 1] {
        list[place] = random.non_zero(p);
    }
    list
}

/// The sum of the series, each times its coefficient.
fn combination(p: u64, n: usize, terms: &[(u32, &[u32])]) -> Vec<u32> {
    let place = |k: usize| {
        terms.iter().fold(0, |sum, (coefficient, series)| {
            field::add(p, sum, field::multiply(p, *coefficient, series[k]))
        })
    };
    (0..n).map(place).collect()
}

/// One route on buffers that are dirty in every place.
fn one(tally: &mut Tally, number: u64, case: &Case, value: &[u32]) {
    let counted = weight(number, case.p, case.f.len(), case.n);
    composed_over(tally, DIRTY, number, case, value, counted);
}

/// x^2 by route 1, whose product has twice the same factor; three coefficients by route 1, whose
/// products have g and other factors; and two blocks by route 2, with squarings and a join.
fn products_of(tally: &mut Tally, random: &mut Random, p: u64, g: &[u32]) {
    let n = g.len();
    let (square, _) = product(p, g, g, n);
    let (fourth, _) = product(p, &square, &square, n);
    let constant = places(&[1], n);
    let [a, b, c, d] = [(); 4].map(|()| random.non_zero(p));
    let up_to_square: [(u32, &[u32]); 3] = [(a, &constant), (b, g), (c, &square)];
    let three = combination(p, n, &up_to_square);
    let five = combination(p, n, &[&up_to_square[..], &[(d, &fourth)]].concat());
    let case = |f: &[u32]| Case { p, n, f: f.to_vec(), g: g.to_vec() };
    one(tally, 1, &case(&[0, 0, 1]), &square);
    one(tally, 1, &case(&[a, b, c]), &three);
    one(tally, 2, &case(&[a, b, c, 0, d]), &five);
}

fn at_orders(tally: &mut Tally, random: &mut Random, orders: impl Iterator<Item = usize> + Clone) {
    for p in MODULI {
        for n in orders.clone() {
            for g in inner_lists(random, p, n) {
                products_of(tally, random, p, &g);
            }
        }
    }
}

pub fn every_order(tally: &mut Tally, random: &mut Random) {
    at_orders(tally, random, 1..=EVERY_ORDER);
}

/// Powers of 2 above `EVERY_ORDER`, where a product that is halved again and again changes its depth.
pub fn around_changes(tally: &mut Tally, random: &mut Random) {
    at_orders(tally, random, [512, 1024, 2048].into_iter().flat_map(|size| size - 1..=size + 2));
}

pub fn largest_orders(tally: &mut Tally, random: &mut Random) {
    at_orders(tally, random, 4094..=4096);
}
