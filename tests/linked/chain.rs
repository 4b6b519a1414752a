//! Chains of larger orders, side by side with the second implementation: opened, cycled until they
//! are full, with broken calls among them.

use crate::checks::broken::{first, some, without_constant};
use crate::checks::calls::accepted;
use crate::checks::chain::cycle_input;
use crate::checks::library::{Call, Input};
use crate::checks::support::{modulus, seen, Tally};
use crate::compare::same;
use crate::linked::Linked;
use crate::plain::chain::Chain;
use crate::plain::primes::LARGE_PRIMES;
use crate::plain::random::Random;

const CHAINS: usize = 6;
const CALLS: usize = 100;

pub fn larger_orders(tally: &mut Tally, random: &mut Random) {
    let (mut refused, mut full, tests) = (0, 0, Call::Cycle.tests());
    for number in 0..CHAINS {
        let p = LARGE_PRIMES.get(number).copied().unwrap_or_else(|| modulus(random));
        let n = random.count(20, 60);
        let (mut chain, mut running) = opened(tally, random, p, n);
        for _ in 0..CALLS {
            let mut input = cycle_input(random, chain, &running);
            let mut broken = if random.once_in(3) { some(random, tests) } else { Vec::new() };
            // 11 comes of itself
            broken.retain(|&number| number != 11);
            input.alter(random, Call::Cycle, &broken);
            if chain.done == 64 {
                broken.push(11);
            }
            let number = first(tests, &broken);
            let left = same(tally, Call::Cycle, &input, number);
            match number {
                0 => (chain, running) = (left.chain, left.out),
                11 => full += 1,
                _ => refused += 1,
            }
        }
        tally.equal((p, n, "full"), chain.done, 64);
    }
    seen(tally, "cycles refused", refused);
    seen(tally, "cycles beyond 64", full);
}

/// An opened chain, after a refused opening, which gives a record of zeros.
fn opened(tally: &mut Tally, random: &mut Random, p: u64, n: usize) -> (Chain, Vec<u32>) {
    let mut input = Input { p, n: n as u64, out: random.buffer(n), ..Input::default() };
    let left = same(tally, Call::Open, &input, 0);
    let number = random.pick(Call::Open.tests());
    input.alter(random, Call::Open, &[number]);
    same(tally, Call::Open, &input, number);
    (left.chain, left.out)
}

/// One cycle by each route at order 4096, with a short list and a running series of 4096 places, held
/// against the definitions.
pub fn largest_order(tally: &mut Tally, random: &mut Random) {
    for route in 1..=4 {
        let (p, n) = (modulus(random), 4096);
        let (chain, _) = opened(tally, random, p, n);
        let running = without_constant(random, p, n);
        let mut input = cycle_input(random, chain, &running);
        (input.route, input.block) = (route, random.block_of(route));
        input.inner = without_constant(random, p, 4);
        input.lend(random, Call::Cycle);
        let left = Call::Cycle.make::<Linked>(&input);
        accepted(tally, Call::Cycle, &input, left);
    }
}
