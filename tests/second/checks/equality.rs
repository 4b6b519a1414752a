//! Two answers for one p, n and g are equal exactly when the outer lists agree in their first n/v
//! coefficients, rounded up, in powers of (z - c).

use super::library::Library;
use super::support::{add_power, compose_in_blocks, lists_up_to, modulus, seen, Case, Tally};
use crate::plain::chain::Chain;
use crate::plain::counts::quotient_rounded_up;
use crate::plain::random::Random;
use crate::plain::substitution::substitution;
use crate::plain::taylor::{coefficients, constant_term, deciding_coefficients, least_power};
use crate::plain::{field, products, refusals};

const PAIRS: usize = 8000;

/// How an answer is come by: the route, and a block length or none.
type Way = (u64, Option<u64>);

/// Route 2 with block lengths that divide a short list into one block, two or more, and the longest.
const LENGTHS: [Way; 6] =
    [(2, Some(1)), (2, Some(2)), (2, Some(3)), (2, Some(4)), (2, Some(5)), (2, Some(64))];

/// The coefficients in powers of (z - c) give back f when z - c is put for the powers; v is from 1
/// to n, the coefficients of g from 1 to v - 1 are zero, and that of v is not, unless v is n.
pub fn taylor(tally: &mut Tally, random: &mut Random) {
    for _ in 0..PAIRS / 4 {
        let Case { p, n, f, g } = Case::draw(random, 12);
        let v = least_power(&g, n);
        let zero = |i: usize| g.get(i).copied().unwrap_or(0) == 0;
        let least = 1 <= v && v <= n && (1..v).all(zero) && (v == n || !zero(v));
        tally.equal((&g, n, v), least, true);
        let c = random.coefficient(p);
        let shifted = coefficients(p, &f, c, f.len());
        let restored = substitution(p, &shifted, &[field::subtract(p, 0, c), 1], f.len());
        tally.equal((p, &f, c), restored, f.clone());
        let longer = coefficients(p, &f, c, f.len() + 3);
        tally.equal((p, &f, c), longer, [shifted, vec![0; 3]].concat());
    }
}

/// Pairs by routes and with block lengths that may differ.
pub fn random_pairs<L: Library>(tally: &mut Tally, random: &mut Random) {
    let mut different_routes = 0;
    pairs::<L>(tally, random, |random| {
        let routes = [random.route(), random.route()];
        different_routes += usize::from(routes[0] != routes[1]);
        routes.map(|route| (route, random.block_of(route)))
    });
    seen(tally, "pairs by different routes", different_routes);
}

/// Pairs by route 2 with two different block lengths.
pub fn random_lengths<L: Library>(tally: &mut Tally, random: &mut Random) {
    pairs::<L>(tally, random, |random| {
        let first = random.block();
        let mut other = random.block();
        while other == first {
            other = random.block();
        }
        [first, other].map(|block| (2, Some(block)))
    });
}

/// Pairs of two composes, of a compose and a cycle, and of two cycles, come by in the ways that are
/// drawn; each kind with equal and with different answers.
fn pairs<L: Library>(
    tally: &mut Tally,
    random: &mut Random,
    mut draw: impl FnMut(&mut Random) -> [Way; 2],
) {
    let mut pairs = [[0; 2]; 3];
    for _ in 0..PAIRS {
        let cases = pair(random);
        let deciding = |case: &Case| deciding_coefficients(case.p, &case.f, &case.g, case.n);
        let agree = deciding(&cases[0]) == deciding(&cases[1]);
        let ways = draw(random);
        let chained = [in_chain(random, &cases[0]), in_chain(random, &cases[1])];
        let mut of = |i: usize| answer::<L>(tally, random, ways[i], chained[i], &cases[i]);
        let same = of(0) == of(1);
        tally.equal((ways, chained, &cases), same, agree);
        pairs[usize::from(chained[0]) + usize::from(chained[1])][usize::from(agree)] += 1;
    }
    for (cycles, [unequal, equal]) in pairs.into_iter().enumerate() {
        seen(tally, &format!("pairs with {cycles} cycles, equal answers"), equal);
        seen(tally, &format!("pairs with {cycles} cycles, different answers"), unequal);
    }
    let equal: usize = pairs.iter().map(|[_, equal]| equal).sum();
    let frequent = PAIRS / 4 < equal && equal < 3 * PAIRS / 4;
    tally.equal((equal, "pairs of", PAIRS, "are equal: both outcomes frequent"), frequent, true);
}

/// Two cases with one p, n and g, apart from what g holds from power n on. The outer lists differ
/// by multiples of powers of (z - c) near the deciding one.
fn pair(random: &mut Random) -> [Case; 2] {
    let p = modulus(random);
    let n = random.count(1, 12);
    let count = random.count(0, n + 2);
    let mut g = random.list(p, count);
    let zeros = random.count(0, count);
    g[..zeros].fill(0);
    if count > 0 && random.once_in(2) {
        g[0] = random.coefficient(p);
    }
    let longest = random.count(0, 10);
    let f = random.list(p, longest);
    let mut other = f.clone();
    for _ in 0..random.count(0, 2) {
        let bound = quotient_rounded_up(n, least_power(&g, n));
        let exponent = random.count(bound.saturating_sub(1), bound + 1);
        other = add_power(p, &other, constant_term(&g), exponent, random.non_zero(p));
    }
    let beyond = random.count(0, 3);
    let extended = [products::places(&g, n), random.list(p, beyond)].concat();
    [Case { p, n, f, g }, Case { p, n, f: other, g: extended }]
}

/// Whether a case is made in a chain: once in two times where both lists have constant term zero and
/// the outer one, the running series of a cycle, has no more than n places.
fn in_chain(random: &mut Random, case: &Case) -> bool {
    let constants = constant_term(&case.f) != 0 || constant_term(&case.g) != 0;
    !constants && case.f.len() <= case.n && random.once_in(2)
}

/// The output of a compose, or of a cycle, which must be the substitution.
fn answer<L: Library>(
    tally: &mut Tally,
    random: &mut Random,
    (route, block): Way,
    chained: bool,
    case: &Case,
) -> Vec<u32> {
    let (number, out) = if chained {
        cycle::<L>(random, (route, block), case)
    } else {
        let (answer, out) = compose_in_blocks::<L>(random, route, block, case);
        (answer.number, out)
    };
    let value = substitution(case.p, &case.f, &case.g, case.n);
    tally.equal((route, block, chained, case), (number, &out), (0, &value));
    out
}

fn cycle<L: Library>(random: &mut Random, (route, block): Way, case: &Case) -> (u32, Vec<u32>) {
    let n = case.n as u64;
    let mut running = products::places(&case.f, case.n);
    let mut work = random.buffer(refusals::cycle_work_places(n, case.g.len()) as usize);
    let chain = Chain { modulus: case.p, order: n, done: random.below(64) };
    let (_, answer) = L::cycle(chain, route, block, &case.g, &mut running, &mut work);
    (answer.number, running)
}

/// All pairs of short outer lists, with all inner lists of at most n places, by every pair of routes.
pub fn exhaustive_pairs<L: Library>(tally: &mut Tally, random: &mut Random) {
    exhaustive::<L>(tally, random, 4, &[1, 2, 3, 4].map(|route| (route, None)));
}

/// The same by route 2, with every pair of the lengths.
pub fn exhaustive_lengths<L: Library>(tally: &mut Tally, random: &mut Random) {
    exhaustive::<L>(tally, random, 3, &LENGTHS);
}

/// All pairs of short outer lists, with all inner lists of at most n places, for n up to the largest.
fn exhaustive<L: Library>(tally: &mut Tally, random: &mut Random, largest: usize, ways: &[Way]) {
    for (p, longest) in [(2, 5), (3, 3)] {
        for n in 1..=largest {
            for g in lists_up_to(p, n) {
                let of = |f| Case { p: u64::from(p), n, f, g: g.clone() };
                let cases = lists_up_to(p, longest).into_iter().map(of).collect();
                exhaustive_cases::<L>(tally, random, cases, ways);
            }
        }
    }
}

/// All pairs of these cases, which differ in the outer list, each answered in every way.
fn exhaustive_cases<L: Library>(
    tally: &mut Tally,
    random: &mut Random,
    cases: Vec<Case>,
    ways: &[Way],
) {
    let mut answers = Vec::new();
    for case in cases {
        let outputs: Vec<Vec<u32>> = ways
            .iter()
            .map(|&way| {
                let chained = in_chain(random, &case);
                answer::<L>(tally, random, way, chained, &case)
            })
            .collect();
        let deciding = deciding_coefficients(case.p, &case.f, &case.g, case.n);
        answers.push((case, outputs, deciding));
    }
    for (case, outputs, deciding) in &answers {
        for (other_case, other_outputs, other_deciding) in &answers {
            let agree = deciding == other_deciding;
            let as_ruled = |out| other_outputs.iter().all(|other| (out == other) == agree);
            tally.equal((case, &other_case.f, agree), outputs.iter().all(as_ruled), true);
        }
    }
}
