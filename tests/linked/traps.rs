//! The traps of the subject: the library's answer is the substitution, and differs from what the
//! mistaken reading gives.

use crate::checks::reversion::{identity, reversible};
use crate::checks::support::{add_power, modulus, seen, weight, Case, Tally};
use crate::checks::traps::{joined_parts, one_level_down};
use crate::compare::composed;
use crate::plain::counts::quotient_rounded_up;
use crate::plain::field;
use crate::plain::random::Random;
use crate::plain::reversion::reverse;
use crate::plain::substitution::substitution;

const CASES: usize = 200;

/// One route on one case; gives back its output.
fn answer(tally: &mut Tally, random: &mut Random, number: u64, case: &Case) -> Vec<u32> {
    let Case { p, n, f, g } = case;
    let value = substitution(*p, f, g, *n);
    composed(tally, random, number, case, &value, weight(number, *p, f.len(), *n))
}

/// Cutting f to n terms before composing is wrong when g has a constant term.
pub fn outer_cut(tally: &mut Tally, random: &mut Random) {
    let mut different = 0;
    for _ in 0..CASES {
        let mut case = Case::draw(random, 6);
        let m = case.n + random.count(1, 4);
        case.f = random.list(case.p, m);
        case.g = [vec![random.non_zero(case.p)], case.g].concat();
        let cut = substitution(case.p, &case.f[..case.n], &case.g, case.n);
        for number in 1..=4 {
            different += usize::from(answer(tally, random, number, &case) != cut);
        }
    }
    seen(tally, "outer list cut, answer different", different);
}

/// In route 3, composing the parts at order n/p rounded down loses the last places.
pub fn order_rounded_down(tally: &mut Tally, random: &mut Random) {
    let mut different = 0;
    for _ in 0..CASES {
        let case = Case::draw(random, 12);
        let wrong = joined_parts(&case, case.n / case.p as usize);
        different += usize::from(answer(tally, random, 3, &case) != wrong);
    }
    seen(tally, "order rounded down, answer different", different);
}

/// In route 4, d is not the same at every level.
pub fn window_fixed(tally: &mut Tally, random: &mut Random) {
    let mut different = 0;
    for _ in 0..CASES {
        let mut case = Case::draw(random, 8);
        let m = random.count(2, 9);
        case.f = random.list(case.p, m);
        let (wrong, _) = one_level_down(&case);
        different += usize::from(answer(tally, random, 4, &case) != wrong);
    }
    seen(tally, "d fixed, answer different", different);
}

/// Lagrange's formula leaves h_k open where p divides k. Every route sees which h_p is right: for it
/// g(h) and h(g) are x, and for every other one g(h) is not.
pub fn lagrange(tally: &mut Tally, random: &mut Random) {
    for p in [2, 3, 5, 7, 11, 13] {
        let (n, k) = (p as usize + 3, p as usize);
        for _ in 0..CASES / 20 {
            let g = reversible(random, p, n);
            let h = reverse(p, &g, n);
            let mut other = h.clone();
            other[k] = field::add(p, h[k], random.non_zero(p));
            for number in 1..=4 {
                let mut of = |f: &Vec<u32>, g: &Vec<u32>| {
                    answer(tally, random, number, &Case { p, n, f: f.clone(), g: g.clone() })
                };
                let found = (of(&g, &h), of(&h, &g), of(&g, &other) == identity(n));
                tally.equal((number, p, &g, &h), found, (identity(n), identity(n), false));
            }
        }
    }
}

/// v is looked for from power 1. A multiple of (z - c) to the power n/v, rounded up, leaves the
/// answer as it is; to the power before that, it does not.
pub fn constant_term_counted(tally: &mut Tally, random: &mut Random) {
    for _ in 0..CASES {
        let p = modulus(random);
        let (n, v) = (random.count(1, 9), random.count(1, 4));
        let c = random.non_zero(p);
        let g = [vec![c], vec![0; v - 1], vec![random.non_zero(p)]].concat();
        let count = random.count(1, 6);
        let f = random.list(p, count);
        let exponent = quotient_rounded_up(n, v);
        let (route, other_route) = (random.route(), random.route());
        let mut of =
            |number, f: Vec<u32>| answer(tally, random, number, &Case { p, n, f, g: g.clone() });
        let same = of(other_route, add_power(p, &f, c, exponent, 1));
        let different = of(other_route, add_power(p, &f, c, exponent - 1, 1));
        let first = of(route, f);
        tally.equal((p, n, &g), (first == same, first == different), (true, false));
    }
}
