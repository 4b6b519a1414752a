//! The equations of the notions that a call is made of, a group for each. Arguments are small: the definitions are computed as they stand.

use crate::plain::chain::{self, Chain};
use crate::plain::random::Random;
use crate::plain::{primes, products, refusals, render, reversion, substitution, taylor, weights};

/// Primes that the prover tests by the definition.
pub const PRIMES: [u64; 5] = [2, 3, 5, 7, 11];

/// A modulus where no law tests it: one of these, or above 2^31.
pub fn untested(random: &mut Random) -> u64 {
    if random.once_in(3) {
        random.large_prime()
    } else {
        random.pick(&PRIMES)
    }
}

/// A list as the definitions write it.
pub fn list<T: std::fmt::Display>(places: &[T]) -> String {
    let shown: Vec<String> = places.iter().map(|place| format!("{place} ∷ ")).collect();
    format!("({}[])", shown.concat())
}

/// A chain record as the definitions write it.
pub fn record(chain: Chain) -> String {
    let Chain { modulus, order, done } = chain;
    format!("(record {{ modulus = {modulus}; order = {order}; done = {done} }})")
}

pub fn all(random: &mut Random) -> Vec<String> {
    let mut equations = Vec::new();
    for _ in 0..60 {
        equations.extend(weight(random));
        equations.push(block_lengths(random));
        equations.extend(composition(random));
        equations.extend(reverse(random));
        equations.push(running(random));
        equations.extend(numbers(random));
        equations.push(late(random));
        equations.push(text(random));
    }
    equations.extend((0..120).map(|p| format!("is_prime {p} ≡ {}", primes::is_prime(p))));
    equations
}

fn weight(random: &mut Random) -> Vec<String> {
    let (p, n, m) = (untested(random), 1 + random.below(9), random.below(14));
    let block = random.block();
    let rule = |route| weights::by_number(route, p, m, n, block);
    (1..=4).map(|route| format!("weight {route} {block} {p} {n} {m} ≡ {}", rule(route))).collect()
}

fn block_lengths(random: &mut Random) -> String {
    let (length, n, m) = (1 + random.below(9), 1 + random.below(30), random.below(40));
    format!("ranged_weight {length} {n} {m} ≡ {}", weights::ranged(m, n, length))
}

fn composition(random: &mut Random) -> Vec<String> {
    let (p, n) = (untested(random), random.count(1, 4));
    let (outer, inner) = (random.count(0, 4), random.count(0, 5));
    let (f, g) = (random.list(p, outer), random.list(p, inner));
    let shown = format!("{p} {n} {} {}", list(&f), list(&g));
    vec![
        format!("composed {shown} ≡ {}", list(&substitution::substitution(p, &f, &g, n))),
        format!("leading {shown} ≡ {}", list(&taylor::deciding_coefficients(p, &f, &g, n))),
    ]
}

/// g(h) and h(g) are x for the h of the second implementation; where there is none, the number is 9. The number tests the modulus, so it is
/// computed for a small one only.
fn reverse(random: &mut Random) -> Vec<String> {
    let (p, n, count) = (untested(random), random.count(1, 4), random.count(0, 4));
    let mut g = random.list(p, count);
    if let Some(constant) = g.first_mut() {
        *constant = if random.once_in(4) { random.coefficient(p) } else { 0 };
    }
    let work = refusals::work_places(n as u64, g.len());
    let number = refusals::reverse(p, n as u64, &g, n, work as usize);
    let mut equations = Vec::new();
    if PRIMES.contains(&p) {
        equations.push(format!("reverse_refusal {p} {n} {} {n} {work} ≡ {number}", list(&g)));
    }
    if number == 0 {
        let (h, g) = (list(&reversion::reverse(p, &g, n)), list(&g));
        equations.push(format!("composed {p} {n} {g} {h} ≡ identity {n}"));
        equations.push(format!("composed {p} {n} {h} {g} ≡ identity {n}"));
    }
    equations
}

/// The composition of cycles, some of them with a constant term, which a chain refuses and the definition does not.
fn running(random: &mut Random) -> String {
    let (p, n) = (untested(random), random.count(1, 5));
    let mut cycles = vec![Vec::new(); random.count(0, 3)];
    for cycle in &mut cycles {
        let count = random.count(0, 3);
        *cycle = random.list(p, count);
        if let Some(constant) = cycle.first_mut() {
            *constant = if random.once_in(4) { random.coefficient(p) } else { 0 };
        }
    }
    let series = products::places(&chain::composition(p, &cycles), n);
    let shown: Vec<String> = cycles.iter().map(|cycle| list(cycle)).collect();
    format!("running {p} {n} {} ≡ {}", list(&shown), list(&series))
}

/// The number of each call, at arguments on both sides of its bounds.
fn numbers(random: &mut Random) -> Vec<String> {
    let (route, p, n) = (random.below(6), random.below(14), random.below(5));
    let block = random.pick(&[0, 1, 4, 64, 65]);
    let (outer, inner) = (random.count(0, 3), random.count(0, 3));
    let (f, g) = (random.list(p + 1, outer), random.list(p + 1, inner));
    let places = (n + random.below(5) / 4) as usize;
    let work = (128 * n + 8 * f.len() as u64 + 16 * n * random.below(2))
        .saturating_sub(random.below(5) / 4);
    let series = random.list(p + 1, places);
    let done = 62 + random.below(4);
    let (shown, shown_inner, shown_series) = (list(&f), list(&g), list(&series));
    let chain = record(Chain { modulus: p, order: n, done });
    let compose = refusals::compose(route, block, p, n, &f, &g, places, work as usize);
    let cycle = refusals::cycle(route, block, p, n, done, &f, &series, work as usize);
    let index = random.below(20);
    vec![
        format!("compose_refusal {route} {block} {p} {n} {shown} {shown_inner} {places} {work} ≡ {compose}"),
        format!("cycle_refusal {route} {block} {chain} {shown} {shown_series} {work} ≡ {cycle}"),
        format!("open_refusal {p} {n} {places} ≡ {}", refusals::open(p, n, places)),
        format!("table_refusal {index} ≡ {}", refusals::table(index)),
    ]
}

/// The number of a cycle that passes all tests but, perhaps, the last two: constant terms, and cycles done.
fn late(random: &mut Random) -> String {
    let (route, p, n) = (random.route(), random.pick(&PRIMES), random.count(1, 3));
    let (mut cycle, mut series) = (random.list(p, 2), random.list(p, n));
    cycle[0] = u32::from(random.once_in(4));
    series[0] = u32::from(random.once_in(4));
    let (done, work) = (62 + random.below(4), refusals::cycle_work_places(n as u64, 2));
    let block = random.block();
    let number = refusals::cycle(route, block, p, n as u64, done, &cycle, &series, work as usize);
    let chain = record(Chain { modulus: p, order: n as u64, done });
    let lists = format!("{} {}", list(&cycle), list(&series));
    format!("cycle_refusal {route} {block} {chain} {lists} {work} ≡ {number}")
}

fn text(random: &mut Random) -> String {
    let (number, n, count) = (random.below(3) as u32 * 7, 1 + random.below(99), random.count(0, 3));
    let weight = random.next() >> random.below(64);
    let coefficients = random.buffer(count);
    let bytes = render::text(number, n, weight, &coefficients);
    format!("rendered {number} {n} {weight} {} ≡ {}", list(&coefficients), list(&bytes))
}
