//! Chains: the running series is the composition of all cycles accepted, the earliest outermost, in
//! whatever way other cycles among them are refused, and after 64 a chain is full.

use super::broken::{first, without_constant};
use super::calls::accepted;
use super::library::{Call, Input, Library};
use super::reversion::identity;
use super::support::{modulus, seen, Tally};
use crate::plain::calls::Answer;
use crate::plain::chain::{composition as whole, Chain};
use crate::plain::primes::LARGEST_PRIME;
use crate::plain::products::places;
use crate::plain::random::Random;
use crate::plain::substitution::substitution;

const CHAINS: usize = 400;
pub const MOST_CYCLES: usize = 64;

/// The largest degree of a composition that is formed whole.
const LARGEST_DEGREE: usize = 150;

pub fn composition<L: Library>(tally: &mut Tally, random: &mut Random) {
    let (mut full, mut formed) = (0, 0);
    for number in 0..CHAINS {
        let (p, n) = (modulus(random), random.count(1, 10));
        let calls = if number % 10 == 0 { 90 } else { random.count(0, 12) };
        let (accepted, running) = chain_of::<L>(tally, random, p, n, calls);
        let cycles: Vec<Vec<u32>> = accepted.into_iter().map(|(input, _)| input.inner).collect();
        full += usize::from(cycles.len() == MOST_CYCLES && running.iter().any(|&place| place != 0));
        formed += usize::from(cycles.len() > 1 && degree(&cycles) <= LARGEST_DEGREE);
    }
    seen(tally, "full chains whose series is not zero", full);
    seen(tally, "compositions formed whole", formed);
}

/// The largest degree on the way to the composition of these cycles, of which one may be zero.
fn degree(cycles: &[Vec<u32>]) -> usize {
    let of = |cycle: &Vec<u32>| cycle.iter().rposition(|&place| place != 0).unwrap_or(0).max(1);
    cycles.iter().fold(1, |degree, cycle| degree.saturating_mul(of(cycle)))
}

/// Full chains of cycles that all differ, by changing routes and with changing block lengths, held
/// after each cycle against the composition formed whole and cut at the end. The lists are
/// shorter than, as long as and longer than n; the last one is empty.
pub fn different_cycles<L: Library>(tally: &mut Tally, random: &mut Random) {
    let mut counts = [0; 3];
    for (p, n) in [2, 7, LARGEST_PRIME].into_iter().flat_map(|p| [1, 2, 6, 66].map(|n| (p, n))) {
        let mut running = random.buffer(n);
        let (mut chain, _) = L::open(p, n as u64, &mut running);
        let mut cycles: Vec<Vec<u32>> = Vec::new();
        for _ in 1..MOST_CYCLES {
            cycles.push(different(random, p, n, &cycles));
            (chain, running) = next::<L>(tally, random, chain, &running, &cycles);
            tally.equal((p, n, &cycles), &running, &places(&whole(p, &cycles), n));
        }
        for cycle in &cycles {
            counts[(cycle.len().cmp(&n) as i8 + 1) as usize] += 1;
        }
        cycles.push(Vec::new());
        (chain, running) = next::<L>(tally, random, chain, &running, &cycles);
        tally.equal((p, n, "full"), (chain.done, running), (64, vec![0; n]));
    }
    for (what, cases) in ["shorter than n", "as long as n", "longer than n"].iter().zip(counts) {
        seen(tally, what, cases);
    }
}

/// A cycle list that is none of these, of a degree that keeps that of the composition small.
fn different(random: &mut Random, p: u64, n: usize, cycles: &[Vec<u32>]) -> Vec<u32> {
    loop {
        let (shorter, longer) = (random.count(2, n.max(2)), n + random.count(1, MOST_CYCLES));
        let top = random.pick(&[1, 1, 1, 2, 3]);
        let mut cycle = vec![0; random.pick(&[shorter, n.max(2), longer])];
        cycle[1] = random.non_zero(p);
        cycle.iter_mut().take(top + 1).skip(2).for_each(|place| *place = random.coefficient(p));
        let all = [cycles, &[cycle.clone()]].concat();
        if !cycles.contains(&cycle) && degree(&all) <= LARGEST_DEGREE {
            return cycle;
        }
    }
}

/// The last of these cycles, by a route and with a block length of its own.
fn next<L: Library>(
    tally: &mut Tally,
    random: &mut Random,
    chain: Chain,
    running: &[u32],
    cycles: &[Vec<u32>],
) -> (Chain, Vec<u32>) {
    let mut input = cycle_input(random, chain, running);
    input.inner = cycles[cycles.len() - 1].clone();
    input.lend(random, Call::Cycle);
    let left = Call::Cycle.make::<L>(&input);
    let after = (left.chain, left.out.clone());
    accepted(tally, Call::Cycle, &input, left);
    after
}

/// Full chains in which every other cycle is by route 2, each time with another block length; every
/// length has its turn, at an order above 64, where it makes several blocks. Between them stand cycles
/// by the other routes.
pub fn changing_lengths<L: Library>(tally: &mut Tally, random: &mut Random) {
    for (p, turn) in [2, 7, LARGEST_PRIME].into_iter().flat_map(|p| [(p, 0), (p, 1)]) {
        let n = random.count(65, 70);
        let mut running = random.buffer(n);
        let (mut chain, _) = L::open(p, n as u64, &mut running);
        for cycle in 1..=MOST_CYCLES as u64 {
            let mut input = cycle_input(random, chain, &running);
            if cycle % 2 == turn {
                (input.route, input.block) = (2, Some(cycle));
            } else if input.route == 2 {
                input.route = random.pick(&[1, 3, 4]);
            }
            let left = Call::Cycle.make::<L>(&input);
            (chain, running) = (left.chain, left.out.clone());
            accepted(tally, Call::Cycle, &input, left);
        }
        tally.equal((p, n, "full"), chain.done, 64);
    }
}

/// Opens a chain and makes so many calls of cycles, about a fifth of them broken. Gives back those
/// that were accepted, each with its answer, and the running series.
pub fn chain_of<L: Library>(
    tally: &mut Tally,
    random: &mut Random,
    p: u64,
    n: usize,
    calls: usize,
) -> (Vec<(Input, Answer)>, Vec<u32>) {
    let mut running = random.buffer(n);
    let (mut chain, _) = L::open(p, n as u64, &mut running);
    let (mut cycles, mut answered) = (Vec::new(), Vec::new());
    for _ in 0..calls {
        let mut input = cycle_input(random, chain, &running);
        let broken = if random.once_in(5) { random.pick(Call::Cycle.tests()) } else { 0 };
        input.alter(random, Call::Cycle, &[broken]);
        let left = Call::Cycle.make::<L>(&input);
        let full = if cycles.len() == MOST_CYCLES { 11 } else { 0 };
        let number = first(Call::Cycle.tests(), &[broken, full]);
        if number != 0 {
            tally.equal((number, &input), left, Call::Cycle.refused(&input, number));
            continue;
        }
        (chain, running) = (left.chain, left.out.clone());
        let answer = left.answer;
        accepted(tally, Call::Cycle, &input, left);
        cycles.push(input.inner.clone());
        answered.push((input, answer));
    }
    // from the innermost cycle outwards, which is the last one
    let around = |inner: Vec<u32>, outer: &Vec<u32>| substitution(p, outer, &inner, n);
    let value = cycles.iter().rev().fold(identity(n), around);
    if degree(&cycles) <= LARGEST_DEGREE {
        tally.equal((p, n, &cycles), &value, &places(&whole(p, &cycles), n));
    }
    let record = Chain { modulus: p, order: n as u64, done: cycles.len() as u64 };
    tally.equal((p, n, &cycles), (&running, chain), (&value, record));
    (answered, running)
}

/// A cycle for this record and this running series, by a route and with a block length of its own.
/// Its list has a linear coefficient, so that the series of a long chain does not vanish; once in 60
/// times it is any list, an empty one too.
pub fn cycle_input(random: &mut Random, chain: Chain, running: &[u32]) -> Input {
    let Chain { modulus: p, order: n, done } = chain;
    let any = random.once_in(60);
    let count = random.count(if any { 0 } else { 2 }, running.len() + 2);
    let (route, mut inner) = (random.route(), without_constant(random, p, count));
    if !any {
        inner[1] = random.non_zero(p);
    }
    let (block, out) = (random.block_of(route), running.to_vec());
    let mut input = Input { route, block, p, n, done, inner, out, ..Input::default() };
    input.lend(random, Call::Cycle);
    input
}
