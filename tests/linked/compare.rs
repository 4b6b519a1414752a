//! Calls of the linked library, compared to the last place: number, weight, chain record, output
//! and every place of the work buffer. The buffers are dirty before, and the work buffer is of the
//! length needed or longer.

use crate::checks::library::{Call, Input, Left, Library, Plain};
use crate::checks::support::{Case, Tally};
use crate::linked::Linked;
use crate::plain::calls::Answer;
use crate::plain::chain::Chain;
use crate::plain::random::Random;

/// An accepted call with this output and this weight, on the buffers of the input. Gives back the
/// output.
fn answered(tally: &mut Tally, call: Call, input: &Input, value: &[u32], weight: u64) -> Vec<u32> {
    let left = call.make::<Linked>(input);
    let out = left.out.clone();
    tally.equal((call, input), left, call.accepted(input, value.to_vec(), weight));
    out
}

/// What a compose by this route is given, without a block length, with dirty buffers.
fn compose_input(random: &mut Random, route: u64, case: &Case) -> Input {
    let Case { p, n, f, g } = case;
    let (outer, inner, out) = (f.clone(), g.clone(), random.buffer(*n));
    let mut input = Input { route, p: *p, n: *n as u64, outer, inner, out, ..Input::default() };
    input.lend(random, Call::Compose);
    input
}

/// An accepted compose by route 2 with this block length, whose weight is that of the rule.
pub fn composed_in_blocks(
    tally: &mut Tally,
    random: &mut Random,
    block: u64,
    case: &Case,
    value: &[u32],
) {
    let mut input = compose_input(random, 2, case);
    input.block = Some(block);
    answered(tally, Call::Compose, &input, value, input.weight(case.f.len()));
}

/// An accepted compose by this route with this weight, whose output the caller judges.
pub fn composed_by(
    tally: &mut Tally,
    random: &mut Random,
    route: u64,
    case: &Case,
    weight: u64,
) -> Vec<u32> {
    let input = compose_input(random, route, case);
    let left = Call::Compose.make::<Linked>(&input);
    let out = left.out.clone();
    tally.equal(&input, left, Call::Compose.accepted(&input, out.clone(), weight));
    out
}

/// An accepted compose by this route.
pub fn composed(
    tally: &mut Tally,
    random: &mut Random,
    route: u64,
    case: &Case,
    value: &[u32],
    weight: u64,
) -> Vec<u32> {
    let input = compose_input(random, route, case);
    answered(tally, Call::Compose, &input, value, weight)
}

/// An accepted compose by this route; before it every place of the output and of work, which is one
/// place longer than needed, holds this number.
pub fn composed_over(
    tally: &mut Tally,
    place: u32,
    route: u64,
    case: &Case,
    value: &[u32],
    weight: u64,
) {
    let Case { p, n, f, g } = case;
    let (outer, inner, out) = (f.clone(), g.clone(), vec![place; *n]);
    let mut input = Input { route, p: *p, n: *n as u64, outer, inner, out, ..Input::default() };
    input.work = vec![place; Call::Compose.needed(&input) as usize + 1];
    answered(tally, Call::Compose, &input, value, weight);
}

/// An accepted reverse.
pub fn reversed(
    tally: &mut Tally,
    random: &mut Random,
    p: u64,
    n: usize,
    g: &[u32],
    value: &[u32],
) -> Vec<u32> {
    let (inner, out) = (g.to_vec(), random.buffer(n));
    let mut input = Input { p, n: n as u64, inner, out, ..Input::default() };
    input.lend(random, Call::Reverse);
    answered(tally, Call::Reverse, &input, value, 0)
}

/// Any call, against the second implementation; it is answered by this number, and a refused one
/// leaves all as it was. Gives back what it left.
pub fn same(tally: &mut Tally, call: Call, input: &Input, number: u32) -> Left {
    let (left, wanted) = (call.make::<Linked>(input), call.make::<Plain>(input));
    tally.equal((call, input), &left, &wanted);
    if number == 0 {
        tally.equal((call, input), left.answer.number, number);
    } else {
        tally.equal((call, input), &left, &call.refused(input, number));
    }
    left
}

/// The linked library for the checks of the second implementation: each call is made of both, and
/// must leave the same.
pub struct Both;

impl Library for Both {
    fn compose(
        route: u64,
        block: Option<u64>,
        p: u64,
        n: u64,
        f: &[u32],
        g: &[u32],
        out: &mut [u32],
        work: &mut [u32],
    ) -> Answer {
        let (outer, inner) = (f.to_vec(), g.to_vec());
        let input = Input { route, block, p, n, outer, inner, ..Input::default() };
        both(Call::Compose, input, out, work).1
    }

    fn reverse(p: u64, n: u64, g: &[u32], out: &mut [u32], work: &mut [u32]) -> Answer {
        let input = Input { p, n, inner: g.to_vec(), ..Input::default() };
        both(Call::Reverse, input, out, work).1
    }

    fn open(p: u64, n: u64, running: &mut [u32]) -> (Chain, Answer) {
        both(Call::Open, Input { p, n, ..Input::default() }, running, &mut [])
    }

    fn cycle(
        chain: Chain,
        route: u64,
        block: Option<u64>,
        list: &[u32],
        running: &mut [u32],
        work: &mut [u32],
    ) -> (Chain, Answer) {
        let Chain { modulus: p, order: n, done } = chain;
        let input = Input { route, block, p, n, done, inner: list.to_vec(), ..Input::default() };
        both(Call::Cycle, input, running, work)
    }

    fn table(index: u64) -> (u32, u32) {
        let found = Linked::table(index);
        assert_eq!(found, Plain::table(index), "index {index}");
        found
    }

    fn render(number: u32, n: u64, weight: u64, list: &[u32], text: &mut [u8]) -> (u32, u64) {
        let mut other = text.to_vec();
        let found = Linked::render(number, n, weight, list, text);
        let wanted = Plain::render(number, n, weight, list, &mut other);
        assert_eq!((found, &*text), (wanted, &*other), "{:?}", (number, n, weight, list));
        found
    }
}

/// One call of both, with these buffers.
fn both(call: Call, lists: Input, out: &mut [u32], work: &mut [u32]) -> (Chain, Answer) {
    let input = Input { out: out.to_vec(), work: work.to_vec(), ..lists };
    let left = call.make::<Linked>(&input);
    assert_eq!(left, call.make::<Plain>(&input), "{call:?} {input:?}");
    out.copy_from_slice(&left.out);
    work.copy_from_slice(&left.work);
    (left.chain, left.answer)
}
