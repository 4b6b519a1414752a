//! The block length of route 2: every length by every route, lengths that are refused beside every
//! other reason, every count of outer coefficients at every length, and the calls without a length.

use super::broken::{first, some, without_constant, UNFIT_BLOCKS};
use super::calls::accepted;
use super::library::{Call, Input, Library};
use super::support::{seen, Tally};
use crate::plain::random::Random;
use crate::plain::substitution::substitution;

/// The calls that take a block length.
const CALLS: [Call; 2] = [Call::Compose, Call::Cycle];

/// Outer coefficients where several blocks of any length are wanted; a cycle has as many as its order.
const LONGEST: usize = 150;
const LARGEST_ORDER: usize = 70;

/// Calls of each kind that are made without a length and with 4.
const DRAWS: usize = 1500;

/// An input that the call accepts, whose outer list has any count up to the limit.
fn draw(random: &mut Random, call: Call) -> Input {
    let mut input = Input::draw(random, call);
    if call == Call::Compose {
        let count = random.count(1, LONGEST);
        input.outer = random.list(input.p, count);
    } else {
        let n = random.count(1, LARGEST_ORDER);
        input.n = n as u64;
        input.out = without_constant(random, input.p, n);
    }
    input.lend(random, call);
    input
}

/// Every length up to 66, and longer ones, by every route: by route 2 those from 1 to 64 are
/// accepted and all others give 15, and every other route accepts all.
pub fn every_length<L: Library>(tally: &mut Tally, random: &mut Random) {
    for block in (0..=66).chain(UNFIT_BLOCKS) {
        for (call, route) in CALLS.into_iter().flat_map(|call| [1, 2, 3, 4].map(|r| (call, r))) {
            let mut input = draw(random, call);
            (input.route, input.block) = (route, Some(block));
            let left = call.make::<L>(&input);
            if route == 2 && !(1..=64).contains(&block) {
                tally.equal((call, &input), left, call.refused(&input, 15));
            } else {
                accepted(tally, call, &input, left);
            }
        }
    }
}

/// A length that route 2 refuses beside each other reason, and beside all at once. By another route
/// it is no reason.
pub fn beside_other_reasons<L: Library>(tally: &mut Tally, random: &mut Random) {
    for call in CALLS {
        let others: Vec<u32> = call.tests().iter().copied().filter(|&test| test != 15).collect();
        let later: Vec<u32> = others.iter().copied().filter(|&test| test != 1).collect();
        let each = others.iter().map(|&other| vec![other]);
        for reasons in each.chain([later, others.clone()]) {
            for block in UNFIT_BLOCKS {
                let with_15 = [&reasons[..], &[15]].concat();
                refused::<L>(tally, random, call, &with_15, |input| input.block = Some(block));
                if !reasons.contains(&1) {
                    let route = random.pick(&[1, 3, 4]);
                    refused::<L>(tally, random, call, &reasons, |input| {
                        (input.route, input.block) = (route, Some(block));
                    });
                }
            }
        }
    }
}

/// A call that is broken in these ways, and then altered further, is refused by the first of them.
fn refused<L: Library>(
    tally: &mut Tally,
    random: &mut Random,
    call: Call,
    broken: &[u32],
    alter: impl Fn(&mut Input),
) {
    let mut input = Input::draw(random, call);
    input.alter(random, call, broken);
    alter(&mut input);
    let (left, number) = (call.make::<L>(&input), first(call.tests(), broken));
    tally.equal((call, broken, &input), left, call.refused(&input, number));
}

/// Every count of outer coefficients up to 200 at every length, at small orders.
pub fn every_count<L: Library>(tally: &mut Tally, random: &mut Random) {
    for (n, m) in (1..=3).flat_map(|n| (0..=200).map(move |m| (n, m))) {
        let p = random.pick(&[2, 3, 7, 65_537]);
        let (outer, inner, out) = (random.list(p, m), random.list(p, n), random.buffer(n));
        let value = substitution(p, &outer, &inner, n);
        let mut input = Input { route: 2, p, n: n as u64, outer, inner, out, ..Input::default() };
        input.lend(random, Call::Compose);
        for block in 1..=64 {
            input.block = Some(block);
            let left = Call::Compose.make::<L>(&input);
            let wanted = Call::Compose.accepted(&input, value.clone(), input.weight(m));
            tally.equal(&input, left, wanted);
        }
    }
}

/// A call without a length leaves what the call with 4 leaves, accepted or refused, by every route;
/// by route 2 the weight at other lengths is mostly another.
pub fn without_length<L: Library>(tally: &mut Tally, random: &mut Random) {
    let mut different = 0;
    for call in CALLS {
        for _ in 0..DRAWS {
            let mut input = draw(random, call);
            let mut broken = some(random, call.tests());
            broken.retain(|&number| number != 15);
            input.alter(random, call, &broken);
            let [without, four, other] = [None, Some(4), Some(random.block())].map(|block| {
                input.block = block;
                call.make::<L>(&input)
            });
            different += usize::from(other.answer != four.answer);
            tally.equal((call, &input), without, four);
        }
    }
    seen(tally, "lengths with another weight", different);
}
