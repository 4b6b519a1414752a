//! Reverse series: g(h) = h(g) = x, and refusal 9 exactly where no h exists.

use super::library::Library;
use super::support::{lists_up_to, modulus, reverse, Tally};
use crate::plain::random::Random;
use crate::plain::substitution::substitution;

const CASES: usize = 2000;

/// x modulo x^n.
pub fn identity(n: usize) -> Vec<u32> {
    (0..n).map(|k| u32::from(k == 1)).collect()
}

/// A series without constant term and with a linear coefficient.
pub fn reversible(random: &mut Random, p: u64, places: usize) -> Vec<u32> {
    let mut g = random.list(p, places.max(2));
    g[0] = 0;
    g[1] = random.non_zero(p);
    g
}

pub fn both_sides<L: Library>(tally: &mut Tally, random: &mut Random) {
    for _ in 0..CASES {
        let p = modulus(random);
        let n = random.count(1, 20);
        let places = random.count(2, n + 3);
        let g = reversible(random, p, places);
        let (answer, h) = reverse::<L>(random, p, &g, n);
        tally.equal((p, n, &g), (answer.number, answer.weight, h[0]), (0, 0, 0));
        tally.equal((p, n, &g, &h), substitution(p, &g, &h, n), identity(n));
        tally.equal((p, n, &g, &h), substitution(p, &h, &g, n), identity(n));
    }
}

/// Against a search through all h: it finds one, the answer, or none where 9 is returned.
pub fn exhaustive<L: Library>(tally: &mut Tally, random: &mut Random) {
    for p in [2, 3] {
        for n in 1..=3 {
            let candidates = lists_up_to(p, n);
            for g in lists_up_to(p, n + 1) {
                let reverses = |h: &&Vec<u32>| {
                    let placed = h.len() == n && h[0] == 0;
                    placed && substitution(u64::from(p), &g, h, n) == identity(n)
                };
                let existing: Vec<&Vec<u32>> = candidates.iter().filter(reverses).collect();
                let (answer, out) = reverse::<L>(random, u64::from(p), &g, n);
                let found = if answer.number == 0 { vec![&out] } else { Vec::new() };
                tally.equal((p, n, &g), found, existing.clone());
                let number = if existing.is_empty() { 9 } else { 0 };
                tally.equal((p, n, &g), answer.number, number);
            }
        }
    }
}
