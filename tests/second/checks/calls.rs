//! The number that each call returns and what it leaves in its buffers and its record, accepted or
//! broken on purpose.

use super::broken::{first, some};
use super::library::{Call, Input, Left, Library};
use super::reversion::identity;
use super::support::Tally;
use crate::plain::random::Random;
use crate::plain::refusals;
use crate::plain::substitution::substitution;

/// Calls of each kind with some reasons of refusal, and with each pair of reasons.
const CALLS: usize = 3000;
const CALLS_OF_PAIR: usize = 12;

pub fn refusals_and_buffers<L: Library>(tally: &mut Tally, random: &mut Random) {
    for call in Call::ALL {
        for _ in 0..CALLS {
            let broken = some(random, call.tests());
            checked::<L>(tally, random, call, &broken);
        }
    }
}

/// Every pair of reasons, and each reason alone.
pub fn precedence<L: Library>(tally: &mut Tally, random: &mut Random) {
    for call in Call::ALL {
        for (i, &earlier) in call.tests().iter().enumerate() {
            for &later in &call.tests()[i..] {
                let mut broken = vec![earlier, later];
                broken.dedup();
                for _ in 0..CALLS_OF_PAIR {
                    checked::<L>(tally, random, call, &broken);
                }
            }
        }
    }
}

/// The numbers 1 to 11 are tested in rising order; 15 comes straight after 1, and a job's 12 and 13
/// come before them.
pub fn order_of_tests(tally: &mut Tally, _: &mut Random) {
    let others = [refusals::TABLE, refusals::RENDER, &refusals::JOB[2..]];
    for tests in Call::ALL.map(Call::tests).into_iter().chain(others) {
        let low: Vec<u32> = tests.iter().copied().filter(|&number| number <= 11).collect();
        tally.equal(tests, low.windows(2).all(|pair| pair[0] < pair[1]), true);
    }
    for tests in [refusals::COMPOSE, refusals::CYCLE] {
        tally.equal(tests, &tests[..3], &[1, 15, 2]);
    }
    tally.equal("a job", &refusals::JOB[..2], &[12, 13]);
}

fn checked<L: Library>(tally: &mut Tally, random: &mut Random, call: Call, broken: &[u32]) {
    let mut input = Input::draw(random, call);
    input.alter(random, call, broken);
    let left = call.make::<L>(&input);
    if broken.is_empty() {
        accepted(tally, call, &input, left);
    } else {
        let number = first(call.tests(), broken);
        tally.equal((call, broken, &input), left, call.refused(&input, number));
    }
}

/// Compares what an accepted call left with what the definitions say.
pub fn accepted(tally: &mut Tally, call: Call, input: &Input, left: Left) {
    let Input { p, outer, inner, out, .. } = input;
    let n = input.n as usize;
    let (value, weight) = match call {
        Call::Compose => (substitution(*p, outer, inner, n), input.weight(outer.len())),
        Call::Reverse => {
            let restored = substitution(*p, inner, &left.out, n);
            tally.equal((call, input, &left), (restored, left.out[0]), (identity(n), 0));
            (left.out.clone(), 0)
        }
        Call::Open => (identity(n), 0),
        Call::Cycle => (substitution(*p, out, inner, n), input.weight(n)),
    };
    tally.equal((call, input), left, call.accepted(input, value, weight));
}
