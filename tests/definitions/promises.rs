//! What each call promises, of the second implementation's own answers on dirty buffers: accepted calls and refused ones. Reversion is not
//! among them, since its promise is not made of equations.

use crate::files;
use crate::plain::random::Random;
use crate::plain::{calls, chain::Chain, job, refusals, render};
use crate::rows::{list, record, PRIMES};
use crate::written::Law;

pub fn all(random: &mut Random) -> Vec<Law> {
    let mut laws = Vec::new();
    for route in 0..6 {
        let p = random.pick(&PRIMES);
        let block = random.block();
        laws.push(compose(random, p, route, block, 1 + route as usize % 2));
    }
    laws.push(compose(random, 7, 2, 4, 0));
    for (route, block) in [(2, 0), (2, 1), (2, 64), (2, 65), (1, 0), (3, 65)] {
        laws.push(compose(random, 7, route, block, 1));
    }
    for fault in 0..4 {
        for _ in 0..4 {
            let p = random.pick(&PRIMES);
            laws.push(opening(random, p, fault));
            laws.push(rendering(random, fault));
        }
    }
    for done in [0, 1, 62, 63, 64, 65] {
        let p = random.pick(&PRIMES);
        laws.push(cycle(random, p, done));
    }
    // the second cycle of the settled case, by every route
    for route in 1..=4 {
        let chain = Chain { modulus: 7, order: 5, done: 1 };
        laws.push(cycle_of(random, chain, (route, 4), &[0, 1, 2], &[0, 1, 1, 0, 0]));
    }
    for index in 16..20 {
        laws.push(table(index));
    }
    laws.extend((0..8).map(|_| answer(random)));
    laws
}

/// Accepted calls with this modulus: compose by every route, an opening and a cycle.
pub fn accepted(random: &mut Random, p: u64) -> Vec<Law> {
    let mut laws: Vec<Law> = (1..=4).map(|route| compose(random, p, route, 4, 1)).collect();
    laws.push(opening(random, p, 0));
    laws.push(cycle(random, p, 0));
    laws
}

/// Routes 0 and 5 are refused, and by route 2 a block length of 0 or above 64. The work lent is one
/// place short for 0, exact for 1, one place more for 2.
fn compose(random: &mut Random, p: u64, route: u64, block: u64, lent: usize) -> Law {
    let n = 1;
    let (f, g) = (random.list(p, 2), random.list(p, 2));
    let places = refusals::work_places(n, f.len()) as usize + lent - 1;
    let (before, work_before) = (random.buffer(1), random.buffer(places));
    let (mut out, mut work) = (before.clone(), work_before.clone());
    let answer = calls::compose(route, block, p, n, &f, &g, &mut out, &mut work);
    let lists = [&f, &g, &before, &out, &work_before, &work].map(|places| list(places)).join(" ");
    Law::promised(
        format!("Compose {route} {block} {p} {n} {lists} {} {}", answer.number, answer.weight),
        &["refusal", "weighs", "output", "clears"],
    )
}

/// An opening: in order, or with a modulus that is not prime, an order of 0, or a place too many.
fn opening(random: &mut Random, prime: u64, fault: u64) -> Law {
    let p = if fault == 1 { prime * prime } else { prime };
    let n = if fault == 2 { 0 } else { 1 + random.below(3) };
    let before = random.buffer((n + u64::from(fault == 3)) as usize);
    let mut series = before.clone();
    let (chain, answer) = Chain::open(p, n, &mut series);
    let (buffers, after) = (format!("{} {}", list(&before), list(&series)), record(chain));
    Law::promised(
        format!("Open {p} {n} {buffers} {} {} {after}", answer.number, answer.weight),
        &["refusal", "weighs", "records", "running"],
    )
}

/// A cycle of a chain with so many done.
fn cycle(random: &mut Random, modulus: u64, done: u64) -> Law {
    let (way, n) = ((random.route(), random.block()), random.count(1, 3));
    let (mut c, mut before) = (random.list(modulus, 3), random.list(modulus, n));
    c[0] = 0;
    before[0] = 0;
    cycle_of(random, Chain { modulus, order: n as u64, done }, way, &c, &before)
}

/// A cycle by this route and with this block length, from the running series as it was before.
fn cycle_of(
    random: &mut Random,
    chain: Chain,
    (route, block): (u64, u64),
    c: &[u32],
    before: &[u32],
) -> Law {
    let places = refusals::cycle_work_places(chain.order, c.len()) as usize + random.count(0, 1);
    let work_before = random.buffer(places);
    let (mut series, mut work) = (before.to_vec(), work_before.clone());
    let (after, answer) = chain.cycle(route, block, c, &mut series, &mut work);
    let lists = [c, before, &series, &work_before, &work].map(|places| list(places)).join(" ");
    let (before, after) = (record(chain), record(after));
    Law::promised(
        format!(
            "Cycle {route} {block} {before} {lists} {} {} {after}",
            answer.number, answer.weight
        ),
        &["refusal", "weighs", "records", "running", "clears"],
    )
}

/// An index past the table.
fn table(index: u64) -> Law {
    let (number, prime) = calls::table(index);
    Law::promised(format!("Table {index} {number} {prime}"), &["refusal", "entry"])
}

/// An answer or a refusal, rendered into a text buffer that is a place too short, exact, or longer.
fn rendering(random: &mut Random, fault: u64) -> Law {
    let (number, n) = (random.below(2) as u32 * 9, random.count(1, 3));
    let (weight, coefficients) = (random.below(1000), random.list(7, n));
    let bytes = render::text(number, n as u64, weight, &coefficients).len();
    let before: Vec<u8> = (0..bytes + fault as usize - 1).map(|_| random.next() as u8).collect();
    let mut text = before.clone();
    let (refusal, count) = render::render(number, n as u64, weight, &coefficients, &mut text);
    let lists = format!("{} {} {}", list(&coefficients), list(&before), list(&text));
    Law::promised(
        format!("Render {number} {n} {weight} {lists} {refusal} {count}"),
        &["refusal", "counts", "writes"],
    )
}

/// The answer to a job file, in a text buffer with places to spare.
fn answer(random: &mut Random) -> Law {
    let file = files::bytes(&files::numbers(random));
    let bytes = job::run(&file);
    let spare: Vec<u8> = (0..random.count(0, 3)).map(|_| random.next() as u8).collect();
    let before: Vec<u8> = bytes.iter().map(|_| random.next() as u8).chain(spare.clone()).collect();
    let text = [&bytes[..], &spare].concat();
    Law::promised(
        format!("Job {} {} {} {}", list(&file), list(&before), list(&text), bytes.len()),
        &["counts", "writes"],
    )
}
