//! What the checks share: the tally, the run of all groups, cases drawn at random, all short lists,
//! multiples of powers of (z - c), and calls with dirty buffers.

use super::library::Library;
use crate::plain::calls::Answer;
use crate::plain::random::Random;
use crate::plain::substitution::substitution;
use crate::plain::{field, primes, products, refusals, weights};
use std::fmt::Debug;
use std::panic::{catch_unwind, AssertUnwindSafe};
use std::process::ExitCode;

/// The seed where none is given.
const DEFAULT_SEED: u64 = 1;

/// How many failures of a group are shown with their input.
const SHOWN: u64 = 3;

/// The comparisons of one group; a quiet tally shows no failures.
#[derive(Default)]
pub struct Tally {
    pub passed: u64,
    pub failed: u64,
    pub quiet: bool,
}

impl Tally {
    pub fn equal<T: PartialEq + Debug>(&mut self, input: impl Debug, found: T, wanted: T) {
        if found == wanted {
            self.passed += 1;
            return;
        }
        self.failed += 1;
        if self.failed <= SHOWN && !self.quiet {
            println!("failed: {input:?}\n  found  {found:?}\n  wanted {wanted:?}");
        }
    }
}

/// Counts a comparison that there were such cases.
pub fn seen(tally: &mut Tally, what: &str, cases: usize) {
    tally.equal((what, cases, "cases"), cases > 0, true);
}

/// A group of comparisons.
pub type Check = fn(&mut Tally, &mut Random);

/// Runs all groups, with the seed that is the first argument, and prints the count of comparisons.
/// A group that panics counts as one failure.
pub fn run(groups: &[(&str, Check)]) -> ExitCode {
    let argument = std::env::args().nth(1);
    let seed = match argument.map_or(Ok(DEFAULT_SEED), |text| text.parse()) {
        Ok(seed) => seed,
        Err(_) => {
            eprintln!("the argument is a seed, a decimal number below 2^64");
            return ExitCode::FAILURE;
        }
    };
    let mut random = Random::new(seed);
    let mut total = Tally::default();
    println!("seed {seed}");
    for (name, check) in groups {
        let mut tally = Tally::default();
        if catch_unwind(AssertUnwindSafe(|| check(&mut tally, &mut random))).is_err() {
            tally.failed += 1;
        }
        println!("{name}: {} comparisons", tally.passed + tally.failed);
        total.passed += tally.passed;
        total.failed += tally.failed;
    }
    println!("{} passed, {} failed", total.passed, total.failed);
    ExitCode::from(u8::from(total.failed > 0))
}

/// The input of a composition.
#[derive(Debug)]
pub struct Case {
    pub p: u64,
    pub n: usize,
    pub f: Vec<u32>,
    pub g: Vec<u32>,
}

impl Case {
    /// A case with order up to the limit; g has a constant term in about half of the cases.
    pub fn draw(random: &mut Random, limit: usize) -> Case {
        let p = modulus(random);
        let n = random.count(1, limit);
        let (m, inner_count) = (random.count(0, limit + 4), random.count(0, n + 3));
        let f = random.list(p, m);
        let mut g = random.list(p, inner_count);
        if inner_count > 0 && random.once_in(3) {
            g[0] = 0;
        }
        Case { p, n, f, g }
    }
}

/// A prime, mostly small, else from the table or above 2^31.
pub fn modulus(random: &mut Random) -> u64 {
    thread_local!(static TABLE: Vec<u32> = primes::table());
    match random.below(8) {
        0 => TABLE.with(|table| u64::from(random.pick(table))),
        1 => random.large_prime(),
        2 | 3 => 2,
        _ => random.pick(&[3, 5, 7, 11, 13, 31, 65537]),
    }
}

/// All lists over the numbers below p with at most so many places.
pub fn lists_up_to(p: u32, longest: usize) -> Vec<Vec<u32>> {
    let mut all = vec![Vec::new()];
    let mut first = 0;
    for _ in 0..longest {
        let last = all.len();
        for i in first..last {
            for coefficient in 0..p {
                all.push([all[i].as_slice(), &[coefficient]].concat());
            }
        }
        first = last;
    }
    all
}

/// f + factor·(z - c)^exponent.
pub fn add_power(p: u64, f: &[u32], c: u32, exponent: usize, factor: u32) -> Vec<u32> {
    let difference = [field::subtract(p, 0, c), 1];
    let monomial = [vec![0; exponent], vec![factor]].concat();
    let count = f.len().max(exponent + 1);
    let multiple = substitution(p, &monomial, &difference, count);
    products::sum(p, &products::places(f, count), &multiple)
}

/// The weight of a route by its rule, with block length 4.
pub fn weight(route: u64, p: u64, m: usize, n: usize) -> u64 {
    weights::by_number(route, p, m as u64, n as u64, 4)
}

/// Compose without a block length, with dirty buffers of the sizes required.
pub fn compose<L: Library>(random: &mut Random, route: u64, case: &Case) -> (Answer, Vec<u32>) {
    compose_in_blocks::<L>(random, route, None, case)
}

/// Compose with this block length or none, with dirty buffers of the sizes required.
pub fn compose_in_blocks<L: Library>(
    random: &mut Random,
    route: u64,
    block: Option<u64>,
    case: &Case,
) -> (Answer, Vec<u32>) {
    let n = case.n as u64;
    let mut out = random.buffer(case.n);
    let mut work = random.buffer(refusals::work_places(n, case.f.len()) as usize);
    let answer = L::compose(route, block, case.p, n, &case.f, &case.g, &mut out, &mut work);
    (answer, out)
}

/// Reverse with dirty buffers of the sizes required.
pub fn reverse<L: Library>(random: &mut Random, p: u64, g: &[u32], n: usize) -> (Answer, Vec<u32>) {
    let mut out = random.buffer(n);
    let mut work = random.buffer(refusals::work_places(n as u64, g.len()) as usize);
    let answer = L::reverse(p, n as u64, g, &mut out, &mut work);
    (answer, out)
}
