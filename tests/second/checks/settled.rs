//! The values that the statement settles: the twelve examples, the weights at every block length, two
//! cycles that differ, the whole case and the edges.

use super::broken::without_constant;
use super::library::{Library, Program};
use super::reversion::identity;
use super::support::{compose, compose_in_blocks, reverse, Case, Tally};
use crate::plain::calls::Answer;
use crate::plain::chain::Chain;
use crate::plain::primes::{is_prime, LARGEST_MODULUS, LARGEST_PRIME, LARGE_PRIMES};
use crate::plain::random::Random;
use crate::plain::{products, refusals, substitution::substitution};

fn case(p: u64, f: &[u32], g: &[u32], n: usize) -> Case {
    Case { p, n, f: f.to_vec(), g: g.to_vec() }
}

pub fn examples<L: Library>(tally: &mut Tally, random: &mut Random) {
    composed_examples::<L>(tally, random);
    weighed_examples::<L>(tally, random);
    weighed_lengths::<L>(tally, random);
    reversed_examples::<L>(tally, random);
    cycled_examples::<L>(tally, random);
    for route in 1..=4 {
        for f in [&[1, 1][..], &[1, 1, 5]] {
            let example = case(7, f, &[0, 0, 1], 3);
            let (answer, out) = compose::<L>(random, route, &example);
            tally.equal((route, &example), (answer.number, out), (0, vec![1, 0, 1]));
        }
    }
}

fn composed_examples<L: Library>(tally: &mut Tally, random: &mut Random) {
    let rows = [
        (1, case(7, &[1, 2, 3], &[0, 1, 1], 4), vec![1, 2, 5, 6], 8),
        (3, case(5, &[1, 2, 3], &[0, 1, 1], 4), vec![1, 2, 0, 1], 8),
        (4, case(7, &[1, 2, 3], &[0, 1, 1], 4), vec![1, 2, 5, 6], 26),
        (3, case(2, &[1, 0, 1], &[1, 1], 3), vec![0, 0, 1], 5),
        (4, case(7, &[3, 4], &[2], 1), vec![4], 0),
    ];
    for (route, example, value, weight) in rows {
        let found = compose::<L>(random, route, &example);
        tally.equal((route, &example), found, (Answer { number: 0, weight }, value));
    }
}

fn weighed_examples<L: Library>(tally: &mut Tally, random: &mut Random) {
    for (route, p, weight) in [(2, 7, 44), (3, 2, 13)] {
        let example = case(p, &random.list(p, 9), &random.list(p, 4), 4);
        let (answer, _) = compose::<L>(random, route, &example);
        tally.equal((route, &example), answer, Answer { number: 0, weight });
    }
}

/// Nine outer coefficients at order 4 by route 2, for any p, at every block length.
fn weighed_lengths<L: Library>(tally: &mut Tally, random: &mut Random) {
    for (block, p) in (1..=64).flat_map(|block| [2, 7, LARGEST_PRIME].map(|p| (block, p))) {
        let weight = match block {
            1..=6 | 8 => 44,
            7 => 48,
            _ => 32,
        };
        let example = case(p, &random.list(p, 9), &random.list(p, 4), 4);
        let found = compose_in_blocks::<L>(random, 2, Some(block), &example);
        let value = substitution(p, &example.f, &example.g, 4);
        tally.equal((block, &example), found, (Answer { number: 0, weight }, value));
    }
}

fn reversed_examples<L: Library>(tally: &mut Tally, random: &mut Random) {
    let series = [0, 1, 1];
    for (p, value) in [(7, vec![0, 1, 6, 2]), (2, vec![0, 1, 1, 0])] {
        let (answer, out) = reverse::<L>(random, p, &series, 4);
        tally.equal((p, series), (answer.number, out), (0, value));
    }
    let (answer, _) = reverse::<L>(random, 7, &[0, 0, 1], 2);
    tally.equal("reverse 0 0 1, n 2", answer.number, 9);
    let (answer, out) = reverse::<L>(random, 7, &[0, 0, 1], 1);
    tally.equal("reverse 0 0 1, n 1", (answer.number, out), (0, vec![0]));
}

/// Two cycles that differ, the earlier one outermost: what each leaves and weighs, by every route.
fn cycled_examples<L: Library>(tally: &mut Tally, random: &mut Random) {
    for (route, weight) in [(1, 20), (2, 30), (3, 20), (4, 59)] {
        let mut running = random.buffer(5);
        let (mut chain, _) = L::open(7, 5, &mut running);
        for (cycle, value) in [([0, 1, 1], [0, 1, 1, 0, 0]), ([0, 1, 2], [0, 1, 3, 4, 4])] {
            let mut work = random.buffer(refusals::cycle_work_places(5, 3) as usize);
            let (next, answer) = L::cycle(chain, route, None, &cycle, &mut running, &mut work);
            let wanted = (Answer { number: 0, weight }, value.to_vec());
            tally.equal((route, cycle), (answer, running.clone()), wanted);
            chain = next;
        }
    }
}

pub fn whole_case<P: Program>(tally: &mut Tally, _: &mut Random) {
    let numbers: [u32; 13] = [1, 7, 4, 3, 28, 3, 40, 1, 2, 3, 0, 1, 1];
    let file: Vec<u8> = numbers.iter().flat_map(|number| number.to_le_bytes()).collect();
    tally.equal(&file, file.len(), 52);
    tally.equal(&file, P::answer(&file), b"ok 4 8\n1 2 5 6\n".to_vec());
}

pub fn edges<L: Library>(tally: &mut Tally, random: &mut Random) {
    edge_of_modulus::<L>(tally, random);
    edge_of_order::<L>(tally, random);
    edges_of_lists::<L>(tally, random);
    edge_of_cycles::<L>(tally, random);
    edges_of_blocks::<L>(tally, random);
}

/// The edges of the table and of rendering.
pub fn other_edges<L: Library>(tally: &mut Tally, _: &mut Random) {
    for (n, number) in [(4096, 0), (4097, 3)] {
        let list = vec![0; n];
        let (found, _) = L::render(0, n as u64, 0, &list, &mut vec![0; 3 * n]);
        tally.equal(("render", n), found, number);
    }
    let (number, prime) = L::table(15);
    tally.equal("index 15", (number, is_prime(u64::from(prime))), (0, true));
    tally.equal("index 16", L::table(16), (14, 0));
}

/// Of the last numbers up to the largest modulus, the two that are prime are accepted; every other
/// one, the largest modulus too, gives 2.
fn edge_of_modulus<L: Library>(tally: &mut Tally, random: &mut Random) {
    for p in LARGEST_MODULUS - 16..=LARGEST_MODULUS {
        let number = if LARGE_PRIMES.contains(&p) { 0 } else { 2 };
        every_call::<L>(tally, random, p, 4, number);
    }
}

/// Order 4096 is accepted and 4097 gives 3.
fn edge_of_order<L: Library>(tally: &mut Tally, random: &mut Random) {
    for (n, number) in [(4096, 0), (4097, 3)] {
        every_call::<L>(tally, random, LARGEST_PRIME, n, number);
    }
}

/// Compose by every route, reverse, an opening and a cycle are answered by this number.
fn every_call<L: Library>(tally: &mut Tally, random: &mut Random, p: u64, n: usize, number: u32) {
    let wanted = (number, number == 0);
    let example = case(p, &random.list(p, 3), &random.list(p, 8), n);
    let value = substitution(p, &example.f, &example.g, n);
    for route in 1..=4 {
        let (answer, out) = compose::<L>(random, route, &example);
        tally.equal((route, p, n), (answer.number, out == value), wanted);
    }
    let series = [0, 1, (p - 1) as u32];
    let (answer, out) = reverse::<L>(random, p, &series, n);
    let restored = substitution(p, &series, &out, n) == identity(n);
    tally.equal(("reverse", p, n), (answer.number, restored), wanted);
    let mut running = random.buffer(n);
    let (_, answer) = L::open(p, n as u64, &mut running);
    tally.equal(("open", p, n), (answer.number, running == identity(n)), wanted);
    let (mut running, chain) = (identity(n), Chain { modulus: p, order: n as u64, done: 0 });
    let mut work = random.buffer(refusals::cycle_work_places(n as u64, series.len()) as usize);
    // joins of 4096 outer coefficients by route 2 would take the second implementation long
    let route = if n > 1000 { random.pick(&[1, 3, 4]) } else { random.route() };
    let (_, answer) = L::cycle(chain, route, None, &series, &mut running, &mut work);
    let value = products::places(&series, n);
    tally.equal(("cycle", p, n), (answer.number, running == value), wanted);
}

/// Lists of 4096 places are accepted; work one place short gives 7; coefficient p - 1 is accepted,
/// p gives 8.
fn edges_of_lists<L: Library>(tally: &mut Tally, random: &mut Random) {
    for route in 1..=4 {
        let example = case(7, &random.list(7, 4096), &random.list(7, 4096), 2);
        let value = substitution(7, &example.f, &example.g, 2);
        let (answer, out) = compose::<L>(random, route, &example);
        tally.equal((route, "lists of 4096"), (answer.number, out), (0, value));
    }
    let (f, g) = ([6, 6, 6], [6, 6]);
    for (missing, number) in [(0, 0), (1, 7)] {
        let mut work = random.buffer(128 * 4 + 8 * 3 - missing);
        let found = L::compose(1, None, 7, 4, &f, &g, &mut [0; 4], &mut work).number;
        tally.equal((missing, "places of work missing"), found, number);
    }
    for (f, g) in [([6, 7], [6, 6]), ([6, 6], [7, 6])] {
        let example = case(7, &f, &g, 4);
        let (answer, _) = compose::<L>(random, 1, &example);
        tally.equal(&example, answer.number, 8);
    }
}

/// Cycle 64 is accepted and the next gives 11.
fn edge_of_cycles<L: Library>(tally: &mut Tally, random: &mut Random) {
    let mut running = random.buffer(5);
    let (mut chain, _) = L::open(7, 5, &mut running);
    for cycle in 1..=65 {
        let number = if cycle <= 64 { 0 } else { 11 };
        let mut work = random.buffer(refusals::cycle_work_places(5, 3) as usize);
        let (next, answer) =
            L::cycle(chain, random.route(), None, &[0, 1, 1], &mut running, &mut work);
        tally.equal(("cycle", cycle), (answer.number, next.done), (number, cycle.min(64)));
        chain = next;
    }
}

/// By route 2 the block lengths 1 and 64 are accepted, and 0 and 65 give 15; every other route accepts
/// all four.
fn edges_of_blocks<L: Library>(tally: &mut Tally, random: &mut Random) {
    for (route, block) in (1..=4).flat_map(|route| [0, 1, 64, 65].map(|block| (route, block))) {
        let number = if route == 2 && [0, 65].contains(&block) { 15 } else { 0 };
        let example = case(7, &without_constant(random, 7, 70), &without_constant(random, 7, 4), 4);
        let value = substitution(7, &example.f, &example.g, 4);
        let wanted = (number, number == 0);
        let (answer, out) = compose_in_blocks::<L>(random, route, Some(block), &example);
        tally.equal((route, block, "compose"), (answer.number, out == value), wanted);
        let (mut running, chain) = (example.f.clone(), Chain { modulus: 7, order: 70, done: 0 });
        let mut work = random.buffer(refusals::cycle_work_places(70, 4) as usize);
        let (_, answer) = L::cycle(chain, route, Some(block), &example.g, &mut running, &mut work);
        let value = substitution(7, &example.f, &example.g, 70);
        tally.equal((route, block, "cycle"), (answer.number, running == value), wanted);
    }
}
