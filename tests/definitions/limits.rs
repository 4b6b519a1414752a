//! Equations at the limits: lists, orders and moduli on both sides of the largest that is taken, weights up to the largest counts, and
//! where the table begins and ends.

use crate::plain::random::Random;
use crate::plain::{chain::Chain, primes, refusals, render, weights};
use crate::rows::{record, PRIMES};
use crate::written::Law;

pub fn all(random: &mut Random) -> Vec<Law> {
    let mut equations = Vec::new();
    for beyond in 0..3 {
        equations.extend(long_list(random, refusals::LONGEST_LIST - 1 + beyond));
        equations.extend(order(random, refusals::LARGEST_ORDER - 1 + beyond as u64));
    }
    for exponent in 3..12 {
        equations.extend(depth(random, 1 << exponent));
    }
    let mut laws: Vec<Law> = equations.into_iter().map(Law::computed).collect();
    laws.extend(moduli());
    laws.push(table());
    laws
}

/// One coefficient so many times as the outer list, the inner list, the series and the cycle.
fn long_list(random: &mut Random, count: usize) -> Vec<String> {
    let (route, p) = (random.route(), random.pick(&PRIMES));
    let (block, c) = (random.block(), random.coefficient(p));
    let (long, shown) = (vec![c; count], format!("(replicate {count} {c})"));
    let work = refusals::cycle_work_places(1, count) as usize;
    let outer = refusals::compose(route, block, p, 1, &long, &[], 1, work);
    let inner = refusals::compose(route, block, p, 1, &[], &long, 1, work);
    let series = refusals::reverse(p, 1, &long, 1, work);
    let cycle = refusals::cycle(route, block, p, 1, 0, &long, &[0], work);
    let chain = record(Chain { modulus: p, order: 1, done: 0 });
    vec![
        format!("compose_refusal {route} {block} {p} 1 {shown} [] 1 {work} ≡ {outer}"),
        format!("compose_refusal {route} {block} {p} 1 [] {shown} 1 {work} ≡ {inner}"),
        format!("reverse_refusal {p} 1 {shown} 1 {work} ≡ {series}"),
        format!("cycle_refusal {route} {block} {chain} {shown} (0 ∷ []) {work} ≡ {cycle}"),
    ]
}

/// The order n, with every buffer long enough for it.
fn order(random: &mut Random, n: u64) -> Vec<String> {
    let (route, p, places) = (random.route(), random.pick(&PRIMES), n as usize);
    let (block, zeros) = (random.block(), vec![0; places]);
    let work = refusals::cycle_work_places(n, 0) as usize;
    let text = render::text(0, n, 0, &zeros).len();
    let compose = refusals::compose(route, block, p, n, &[], &[], places, work);
    let reverse = refusals::reverse(p, n, &[0, 1], places, work);
    let cycle = refusals::cycle(route, block, p, n, 0, &[], &zeros, work);
    let chain = record(Chain { modulus: p, order: n, done: 0 });
    let render = refusals::render(0, n, 0, &zeros, text);
    vec![
        format!("compose_refusal {route} {block} {p} {n} [] [] {n} {work} ≡ {compose}"),
        format!("reverse_refusal {p} {n} (0 ∷ 1 ∷ []) {n} {work} ≡ {reverse}"),
        format!("open_refusal {p} {n} {n} ≡ {}", refusals::open(p, n, places)),
        format!("cycle_refusal {route} {block} {chain} [] (replicate {n} 0) {work} ≡ {cycle}"),
        format!("render_refusal 0 {n} {n} {text} {text} ≡ {render}"),
    ]
}

/// Weights for a count above this power of two and up to the next: so deep go the parts for p = 2, the joins of blocks of 1 and the halvings.
fn depth(random: &mut Random, power: u64) -> Vec<String> {
    let (count, other) = (power + 1 + random.below(power), 1 + random.below(40));
    vec![
        format!("weight 3 4 2 {other} {count} ≡ {}", weights::bernstein(2, count, other)),
        format!("ranged_weight 1 {other} {count} ≡ {}", weights::ranged(count, other, 1)),
        format!("weight 4 4 2 {count} {other} ≡ {}", weights::kinoshita_li(other, count)),
    ]
}

/// A modulus above the largest is refused, prime or not, so `is_prime` stays shut. Up to the largest, primality decides: the numbers are too
/// large for it to be computed by the definition, and the second implementation says it.
fn moduli() -> Vec<Law> {
    const SHUT: &[&str] = &["is_prime"];
    let largest = primes::LARGEST_MODULUS;
    let refusal = |p| format!("open_refusal {p} 1 1 ≡ {}", refusals::open(p, 1, 1));
    let next = (largest + 1..).find(|&p| primes::is_prime(p)).expect("a prime above the largest");
    let mut laws: Vec<Law> =
        [largest + 1, next].map(|p| Law::over(SHUT, refusal(p))).into_iter().collect();
    laws.push(Law::over(SHUT, format!("largest_modulus ≡ {largest}")));
    for p in primes::LARGE_PRIMES.into_iter().chain([1 << 31, largest]) {
        let statement = format!("is_prime {p} ≡ {} → {}", primes::is_prime(p), refusal(p));
        laws.push(Law { statement, proof: String::from("λ told. rw told"), shut: SHUT });
    }
    laws
}

/// How many primes the table holds, and below which number; the search for them stays shut.
fn table() -> Law {
    let (count, bound) = (primes::TABLE_LENGTH, 1u64 << 31);
    Law::over(&["primes_below"], format!("prime_table ≡ primes_below {count} {bound}"))
}
