//! The number that each call returns: that of the first test that fires, in the order of the call's
//! tests, or 0. The order of each call comes first, then the conditions that several calls meet;
//! those of one call, from 9 on, stand with it.

use super::job::{self, Header};
use super::primes::{is_prime, LARGEST_MODULUS, TABLE_LENGTH};
use super::render;
use super::taylor::constant_term;

pub const SHORTEST_BLOCK: u64 = 1;
pub const LONGEST_BLOCK: u64 = 64;
pub const LARGEST_ORDER: u64 = 4096;
pub const LONGEST_LIST: usize = 4096;
pub const MOST_CYCLES: u64 = 64;

/// The numbers that a call tests, in the order in which it tests them.
pub type Tests = &'static [u32];

pub const COMPOSE: Tests = &[1, 15, 2, 3, 4, 5, 6, 7, 8];
pub const REVERSE: Tests = &[2, 3, 5, 6, 7, 8, 9];
pub const OPEN: Tests = &[2, 3, 6];
pub const CYCLE: Tests = &[1, 15, 2, 3, 5, 6, 7, 8, 10, 11];
pub const TABLE: Tests = &[14];
pub const RENDER: Tests = &[3, 6, 7];

/// The lists and buffers of a job can't meet 4 to 7, and its block length not 15.
pub const JOB: Tests = &[12, 13, 1, 2, 3, 8];

/// The first of these numbers whose test fires, or 0.
pub fn first(tests: Tests, fires: impl Fn(u32) -> bool) -> u32 {
    tests.iter().copied().find(|&number| fires(number)).unwrap_or(0)
}

/// Number 1.
fn route_unknown(route: u64) -> bool {
    !(1..=4).contains(&route)
}

/// Number 15.
fn block_unfit(route: u64, block: u64) -> bool {
    route == 2 && !(SHORTEST_BLOCK..=LONGEST_BLOCK).contains(&block)
}

/// Number 2.
fn modulus_unfit(p: u64) -> bool {
    p > LARGEST_MODULUS || !is_prime(p)
}

/// Number 3.
fn order_unfit(n: u64) -> bool {
    n == 0 || n > LARGEST_ORDER
}

/// Numbers 4 and 5.
fn too_long(list: &[u32]) -> bool {
    list.len() > LONGEST_LIST
}

/// Number 6.
fn not_of_order(places: usize, n: u64) -> bool {
    places as u64 != n
}

/// Number 7.
fn too_short(places: usize, needed: u64) -> bool {
    (places as u64) < needed
}

/// Number 8.
fn not_below(p: u64, list: &[u32]) -> bool {
    list.iter().any(|&coefficient| u64::from(coefficient) >= p)
}

/// The work places of compose and reverse: 128n + 8m.
pub fn work_places(n: u64, m: usize) -> u64 {
    n.saturating_mul(128).saturating_add(8 * m as u64)
}

/// The work places of a cycle: 144n + 8m.
pub fn cycle_work_places(n: u64, m: usize) -> u64 {
    n.saturating_mul(144).saturating_add(8 * m as u64)
}

pub fn compose(
    route: u64,
    block: u64,
    p: u64,
    n: u64,
    f: &[u32],
    g: &[u32],
    out_places: usize,
    work: usize,
) -> u32 {
    first(COMPOSE, |number| match number {
        1 => route_unknown(route),
        15 => block_unfit(route, block),
        2 => modulus_unfit(p),
        3 => order_unfit(n),
        4 => too_long(f),
        5 => too_long(g),
        6 => not_of_order(out_places, n),
        7 => too_short(work, work_places(n, f.len())),
        8 => not_below(p, f) || not_below(p, g),
        _ => unreachable!("compose has no test {number}"),
    })
}

pub fn reverse(p: u64, n: u64, g: &[u32], out_places: usize, work: usize) -> u32 {
    let linear = g.get(1).copied().unwrap_or(0);
    first(REVERSE, |number| match number {
        2 => modulus_unfit(p),
        3 => order_unfit(n),
        5 => too_long(g),
        6 => not_of_order(out_places, n),
        7 => too_short(work, work_places(n, g.len())),
        8 => not_below(p, g),
        9 => constant_term(g) != 0 || n >= 2 && linear == 0,
        _ => unreachable!("reverse has no test {number}"),
    })
}

pub fn open(p: u64, n: u64, running_places: usize) -> u32 {
    first(OPEN, |number| match number {
        2 => modulus_unfit(p),
        3 => order_unfit(n),
        6 => not_of_order(running_places, n),
        _ => unreachable!("an opening has no test {number}"),
    })
}

pub fn cycle(
    route: u64,
    block: u64,
    p: u64,
    n: u64,
    done: u64,
    list: &[u32],
    running: &[u32],
    work: usize,
) -> u32 {
    first(CYCLE, |number| match number {
        1 => route_unknown(route),
        15 => block_unfit(route, block),
        2 => modulus_unfit(p),
        3 => order_unfit(n),
        5 => too_long(list),
        6 => not_of_order(running.len(), n),
        7 => too_short(work, cycle_work_places(n, list.len())),
        8 => not_below(p, list) || not_below(p, running),
        10 => constant_term(list) != 0 || constant_term(running) != 0,
        11 => done >= MOST_CYCLES,
        _ => unreachable!("a cycle has no test {number}"),
    })
}

pub fn table(index: u64) -> u32 {
    first(TABLE, |number| match number {
        14 => index >= TABLE_LENGTH as u64,
        _ => unreachable!("the table has no test {number}"),
    })
}

/// Rendering; with a refusal number to render it can meet only 7.
pub fn render(number: u32, n: u64, weight: u64, list: &[u32], text_places: usize) -> u32 {
    let needed = render::text(number, n, weight, list).len() as u64;
    first(RENDER, |test| match test {
        3 => number == 0 && order_unfit(n),
        6 => number == 0 && not_of_order(list.len(), n),
        7 => too_short(text_places, needed),
        _ => unreachable!("rendering has no test {test}"),
    })
}

/// The job program. From 13 on there is a job to test.
pub fn job(file: &[u8]) -> u32 {
    let read = job::Job::read(file);
    first(JOB, |number| match (number, &read) {
        (12, _) => {
            file.len() > job::LONGEST_FILE || Header::read(file).map_or(false, job_too_large)
        }
        (13, _) => read.is_none(),
        (1, Some(job)) => route_unknown(job.route),
        (2, Some(job)) => modulus_unfit(job.modulus),
        (3, Some(job)) => order_unfit(job.order),
        (8, Some(job)) => not_below(job.modulus, &job.outer) || not_below(job.modulus, &job.inner),
        _ => unreachable!("a job has no test {number}"),
    })
}

fn job_too_large(header: Header) -> bool {
    [header.order, header.outer_count, header.inner_count].iter().any(|&stated| stated > 64)
}
