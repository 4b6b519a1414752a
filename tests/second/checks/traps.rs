//! The traps of the subject. Each check shows the right answer beside the one that the mistaken
//! reading gives, and that the two differ.

use super::library::{Library, Plain};
use super::reversion::reversible;
use super::support::{add_power, compose, modulus, reverse, seen, Case, Tally};
use crate::plain::counts::quotient_rounded_up;
use crate::plain::products::{places, product, spread, sum};
use crate::plain::random::Random;
use crate::plain::routes::mirror;
use crate::plain::substitution::substitution;
use crate::plain::{field, taylor};

const CASES: usize = 200;

/// Lagrange's formula: k·h_k is coefficient k - 1 of (x/g)^k. Where p divides k it says 0 = 0 and
/// leaves h_k open.
pub fn lagrange<L: Library>(tally: &mut Tally, random: &mut Random) {
    let mut open = 0;
    for p in [2, 3, 5, 7, 11, 13] {
        let n = p as usize + 3;
        for _ in 0..CASES / 10 {
            let g = reversible(random, p, n);
            let (_, h) = reverse::<L>(random, p, &g, n);
            let reciprocal = x_over(p, &g, n);
            for (k, &coefficient) in h.iter().enumerate().skip(1) {
                let monomial = [vec![0; k], vec![1]].concat();
                let right = substitution(p, &monomial, &reciprocal, n)[k - 1];
                let factor = field::remainder(p, k as u64);
                tally.equal((p, &g, k), right, field::multiply(p, factor, coefficient));
                open += usize::from(factor == 0 && coefficient != 0);
            }
        }
    }
    seen(tally, "h_k open in Lagrange's formula and not zero", open);
}

/// x/g modulo x^n, as the sum of the powers of 1 - g/(g_1·x), over g_1.
fn x_over(p: u64, g: &[u32], n: usize) -> Vec<u32> {
    let inverse = field::inverse(p, g[1]);
    let scaled: Vec<u32> = g[1..].iter().map(|&c| field::multiply(p, c, inverse)).collect();
    let mut rest: Vec<u32> = scaled.iter().map(|&c| field::subtract(p, 0, c)).collect();
    rest[0] = 0;
    substitution(p, &vec![inverse; n], &rest, n)
}

/// Cutting f to n terms before composing is wrong when g has a constant term.
pub fn outer_cut(tally: &mut Tally, random: &mut Random) {
    let mut different = 0;
    for _ in 0..CASES {
        let mut case = Case::draw(random, 6);
        let m = case.n + random.count(1, 4);
        case.f = random.list(case.p, m);
        case.g = [vec![random.non_zero(case.p)], case.g].concat();
        let value = substitution(case.p, &case.f, &case.g, case.n);
        let cut = substitution(case.p, &case.f[..case.n], &case.g, case.n);
        for route in 1..=4 {
            let (_, out) = compose::<Plain>(random, route, &case);
            tally.equal((route, &case), &out, &value);
        }
        different += usize::from(value != cut);
    }
    seen(tally, "outer list cut, answer different", different);
}

/// In route 3, composing the parts at order n/p rounded down loses the last places.
pub fn order_rounded_down(tally: &mut Tally, random: &mut Random) {
    let mut different = 0;
    for _ in 0..CASES {
        let case = Case::draw(random, 12);
        let (_, out) = compose::<Plain>(random, 3, &case);
        let p = case.p as usize;
        tally.equal(&case, &out, &joined_parts(&case, quotient_rounded_up(case.n, p)));
        different += usize::from(out != joined_parts(&case, case.n / p));
    }
    seen(tally, "order rounded down, answer different", different);
}

/// The sum of g^j times part j of f, composed with g at this order and spread to x^p.
pub fn joined_parts(case: &Case, order: usize) -> Vec<u32> {
    let Case { p, n, f, g } = case;
    let mut total = vec![0; *n];
    let mut power = places(&[1], *n);
    for j in 0..f.len().min(*p as usize) {
        let part: Vec<u32> = f[j..].iter().step_by(*p as usize).copied().collect();
        let composed = spread(&substitution(*p, &part, g, order), *p as usize, *n);
        total = sum(*p, &total, &product(*p, &power, &composed, *n).0);
        power = product(*p, &power, g, *n).0;
    }
    total
}

/// In route 4, one level down the powers of y from d - q on are needed, not those from d on: the
/// answer is A_(m - 1) - g(-x)·A_(m - 2), where A = P/(Q(x, y)·Q(-x, y)), and not A_(m - 1).
pub fn window_fixed(tally: &mut Tally, random: &mut Random) {
    let mut different = 0;
    for _ in 0..CASES {
        let mut case = Case::draw(random, 8);
        let m = random.count(2, 9);
        case.f = random.list(case.p, m);
        let (deeper, needed) = one_level_down(&case);
        let (_, out) = compose::<Plain>(random, 4, &case);
        tally.equal(&case, sum(case.p, &out, &needed), deeper.clone());
        different += usize::from(out != deeper);
    }
    seen(tally, "d fixed, answer different", different);
}

/// A_(m - 1), which is the answer where d is held fixed, and g(-x)·A_(m - 2), which it lacks.
pub fn one_level_down(case: &Case) -> (Vec<u32>, Vec<u32>) {
    let Case { p, n, f, g } = case;
    let mirrored = mirror(*p, &places(g, *n));
    let (mut quotient, mut deeper, mut before) = (vec![0; *n], vec![0; *n], vec![0; *n]);
    for &coefficient in f.iter().rev() {
        before = deeper;
        quotient = sum(*p, &places(&[coefficient], *n), &product(*p, g, &quotient, *n).0);
        deeper = sum(*p, &quotient, &product(*p, &mirrored, &before, *n).0);
    }
    (deeper, product(*p, &mirrored, &before, *n).0)
}

/// v is looked for from power 1. Were it 0 where g has a constant term, no coefficient of f in
/// powers of (z - c) could be left out; but those from n/v on leave the answer as it is.
pub fn constant_term_counted(tally: &mut Tally, random: &mut Random) {
    for _ in 0..CASES {
        let p = modulus(random);
        let (n, v) = (random.count(1, 9), random.count(1, 4));
        let c = random.non_zero(p);
        let g = [vec![c], vec![0; v - 1], vec![random.non_zero(p)]].concat();
        let count = random.count(1, 6);
        let f = random.list(p, count);
        let exponent = quotient_rounded_up(n, v);
        let other = add_power(p, &f, c, exponent, 1);
        let rewritten = |list: &[u32]| taylor::coefficients(p, list, c, other.len());
        tally.equal((p, n, &f, &other), rewritten(&f) == rewritten(&other), false);
        let deciding = |list: &[u32]| taylor::deciding_coefficients(p, list, &g, n);
        tally.equal((p, n, &g, &f, &other), deciding(&f), deciding(&other));
        let route = random.route();
        let (_, first) = compose::<Plain>(random, route, &Case { p, n, f, g: g.clone() });
        let (_, second) =
            compose::<Plain>(random, 5 - route, &Case { p, n, f: other, g: g.clone() });
        tally.equal((p, n, &g), first, second);
    }
}
