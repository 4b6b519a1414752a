//! Chains cut in two and cycles undone (N6), by the calls alone: a fresh chain accepts the calls of the
//! second part as the long one did, and the two running series composed are that of the long chain;
//! a cycle with the reverse series restores the running series.

use super::chain::{chain_of, cycle_input, MOST_CYCLES};
use super::library::{Call, Input, Library};
use super::reversion::reversible;
use super::support::{modulus, reverse, seen, Tally};
use crate::plain::calls::Answer;
use crate::plain::chain::Chain;
use crate::plain::primes::LARGEST_PRIME;
use crate::plain::random::Random;
use crate::plain::substitution::substitution;

const CHAINS: usize = 40;

/// Calls for a full chain, with refused ones among them.
const CALLS: usize = 90;

/// Every split of full chains and of shorter ones, with refused calls among those of the long chain.
/// Counts the splits that show the order of the two parts.
pub fn every_split<L: Library>(tally: &mut Tally, random: &mut Random) {
    let (mut refused, mut full, mut ordered) = (0, 0, 0);
    let long = [2, 7, LARGEST_PRIME].into_iter().flat_map(|p| [1, 2, 30].map(|n| (p, n, CALLS)));
    let draw = |_| (modulus(random), random.count(1, 12), random.count(0, 15));
    let short: Vec<_> = (0..CHAINS).map(draw).collect();
    for (p, n, calls) in long.chain(short) {
        let (accepted, whole) = chain_of::<L>(tally, random, p, n, calls);
        refused += calls - accepted.len();
        full += usize::from(accepted.len() == MOST_CYCLES);
        for split in 0..=accepted.len() {
            let first = accepted.get(split).map_or(&whole, |(input, _)| &input.out);
            let rest = fresh_chain::<L>(tally, random, p, n, &accepted[split..]);
            joined::<L>(tally, random, p, [first, &rest], &whole);
            ordered += usize::from(substitution(p, &rest, first, n) != whole);
        }
    }
    seen(tally, "calls refused", refused);
    seen(tally, "full chains", full);
    seen(tally, "splits that show the order", ordered);
}

/// A fresh chain that is handed these calls, with work buffers as long: it answers as the long one
/// did. Gives back its running series.
fn fresh_chain<L: Library>(
    tally: &mut Tally,
    random: &mut Random,
    p: u64,
    n: usize,
    calls: &[(Input, Answer)],
) -> Vec<u32> {
    let mut running = random.buffer(n);
    let (mut chain, _) = L::open(p, n as u64, &mut running);
    for (handed, answer) in calls {
        let (done, work) = (chain.done, random.buffer(handed.work.len()));
        let input = Input { done, out: running, work, ..handed.clone() };
        let left = Call::Cycle.make::<L>(&input);
        (chain, running) = (left.chain, left.out.clone());
        let wanted = Call::Cycle.accepted(&input, running.clone(), answer.weight);
        tally.equal((handed, answer), left, wanted);
    }
    running
}

/// A compose of the two running series, by a route and with a block length of its own, leaves that of
/// the whole chain.
fn joined<L: Library>(
    tally: &mut Tally,
    random: &mut Random,
    p: u64,
    halves: [&Vec<u32>; 2],
    whole: &Vec<u32>,
) {
    let n = whole.len();
    let (route, [outer, inner]) = (random.route(), halves.map(Vec::clone));
    let (block, out) = (random.block_of(route), random.buffer(n));
    let mut input = Input { route, block, p, n: n as u64, outer, inner, out, ..Input::default() };
    input.lend(random, Call::Compose);
    let left = Call::Compose.make::<L>(&input);
    let weight = input.weight(n);
    tally.equal(&input, left, Call::Compose.accepted(&input, whole.clone(), weight));
}

/// How many places the reverse series is handed with: those of the order, or fewer, without its last
/// zeros, or further ones, which no answer reads.
#[derive(Clone, Copy, Debug)]
enum Count {
    Order,
    Fewer,
    More,
}

/// A cycle and then one with its reverse series, as the library gives it: by lists of two places,
/// shorter than n, as long and longer.
pub fn undone<L: Library>(tally: &mut Tally, random: &mut Random) {
    let (mut moved, mut fewer) = (0, 0);
    for (p, n) in [2, 3, 7, LARGEST_PRIME].into_iter().flat_map(|p| [1, 2, 300].map(|n| (p, n))) {
        let (shorter, longer) = (random.count(2, n.max(2)), n + random.count(1, 9));
        let counts = [Count::Fewer, Count::More, Count::Order, Count::More];
        for (places, count) in [2, shorter, n, longer].into_iter().zip(counts) {
            let cycle = reversible(random, p, places);
            let reversed = reverse_series::<L>(tally, random, p, n, &cycle, count);
            fewer += usize::from(reversed.len() < n);
            moved += usize::from(undo::<L>(tally, random, p, n, &cycle, &reversed));
        }
    }
    // below x^1 every list without constant term has the reverse series 0
    for cycle in [vec![], vec![0]] {
        let reversed = reverse_series::<L>(tally, random, 7, 1, &cycle, Count::Order);
        undo::<L>(tally, random, 7, 1, &cycle, &reversed);
    }
    seen(tally, "cycles that change the running series", moved);
    seen(tally, "reverse series of fewer places", fewer);
}

/// The reverse series of a cycle list as the library gives it, with this count of places.
fn reverse_series<L: Library>(
    tally: &mut Tally,
    random: &mut Random,
    p: u64,
    n: usize,
    cycle: &[u32],
    count: Count,
) -> Vec<u32> {
    let (answer, mut series) = reverse::<L>(random, p, cycle, n);
    tally.equal((p, n, cycle), answer, Answer { number: 0, weight: 0 });
    match count {
        Count::Order => (),
        Count::Fewer => {
            let last = series.iter().rposition(|&place| place != 0);
            series.truncate(last.map_or(0, |last| last + 1));
        }
        Count::More => series.extend(random.list(p, 5)),
    }
    series
}

/// A cycle after two others, a refused call, and a cycle with the reverse series: the running series
/// is as it was. Whether the cycle had changed it.
fn undo<L: Library>(
    tally: &mut Tally,
    random: &mut Random,
    p: u64,
    n: usize,
    cycle: &[u32],
    reversed: &[u32],
) -> bool {
    let mut running = random.buffer(n);
    let (mut chain, _) = L::open(p, n as u64, &mut running);
    for _ in 0..2 {
        let list = reversible(random, p, 3);
        (chain, running) = cycled::<L>(tally, random, chain, &running, &list);
    }
    let (next, changed) = cycled::<L>(tally, random, chain, &running, cycle);
    let mut input = cycle_input(random, next, &changed);
    input.alter(random, Call::Cycle, &[10]);
    let left = Call::Cycle.make::<L>(&input);
    tally.equal(&input, left, Call::Cycle.refused(&input, 10));
    let (last, restored) = cycled::<L>(tally, random, next, &changed, reversed);
    let wanted = (&running, chain.done + 2);
    tally.equal((p, n, cycle, reversed), (&restored, last.done), wanted);
    changed != running
}

/// A cycle with this list, by a route and with a block length of its own; it is accepted.
fn cycled<L: Library>(
    tally: &mut Tally,
    random: &mut Random,
    chain: Chain,
    running: &[u32],
    list: &[u32],
) -> (Chain, Vec<u32>) {
    let mut input = cycle_input(random, chain, running);
    input.inner = list.to_vec();
    input.lend(random, Call::Cycle);
    let left = Call::Cycle.make::<L>(&input);
    tally.equal(&input, left.answer.number, 0);
    (left.chain, left.out)
}
