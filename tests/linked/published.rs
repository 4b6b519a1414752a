//! Published reverse series: Examples 1 and 2 of Bostan, Christol and Dumas, Fast Computation of
//! the Nth Term of an Algebraic Series over a Finite Prime Field (source document 003). The series
//! f there solves E(x, f) = 0 where E is x - g(y), so f is the reverse of g.

use crate::checks::support::Tally;
use crate::compare::reversed;
use crate::plain::field;
use crate::plain::products::{places, product, spread, sum};
use crate::plain::random::Random;

/// The modulus of Example 1.
const FIVE: u64 = 5;

/// A list that is written with signs, modulo p.
fn modulo(p: u64, list: &[i64]) -> Vec<u32> {
    list.iter().map(|&c| field::remainder(p, c.rem_euclid(p as i64) as u64)).collect()
}

/// The sum of c(x)·f(x^q) over pairs of c and q, modulo x^n.
fn mahler(p: u64, f: &[u32], terms: &[(Vec<u32>, usize)]) -> Vec<u32> {
    let n = f.len();
    terms.iter().fold(vec![0; n], |total, (factor, step)| {
        sum(p, &total, &product(p, factor, &spread(f, *step, n), n).0)
    })
}

/// Example 1: E = x + y - y^3 over the integers modulo 5, so g = -y + y^3, and f is
/// -x - x^3 + 2x^5 - 2x^7 + 2x^11 and on.
pub fn toy_example(tally: &mut Tally, random: &mut Random) {
    let g = modulo(FIVE, &[0, -1, 0, 1]);
    let f = modulo(FIVE, &[0, -1, 0, -1, 0, 2, 0, -2, 0, 0, 0, 2]);
    for n in 1..=f.len() {
        reversed(tally, random, FIVE, n, &g, &f[..n]);
    }
    for n in [100, 700, 4096] {
        let found = reversed(tally, random, FIVE, n, &g, &by_equation(n));
        let begins = places(&found, 12);
        tally.equal((n, "first places"), begins, f.clone());
    }
}

/// The f of Example 1 by its equation (2),
/// x^4(1 - x^2 - x^4)f(x) - (1 + x^4 - 2x^6)f(x^5) + f(x^25) = 0, from f_1 = -1.
fn by_equation(n: usize) -> Vec<u32> {
    let mut f = vec![0u32; n];
    f[1] = 4;
    let at = |f: &[u32], index: usize, step: usize| match index % step {
        0 => i64::from(f[index / step]),
        _ => 0,
    };
    for k in 2..n {
        // the coefficient of x^(k + 4), solved for f_k
        let back = |shift: usize| (k + 4).checked_sub(shift);
        let term = |shift: usize, step: usize| back(shift).map_or(0, |index| at(&f, index, step));
        let value =
            term(6, 1) + term(8, 1) + term(0, 5) + term(4, 5) - 2 * term(6, 5) - term(0, 25);
        f[k] = value.rem_euclid(5) as u32;
    }
    f
}

/// Example 2: E = x + (1 + y)^(p - 1) - 1 for p > 2, so g = 1 - (1 + y)^(p - 1), whose coefficients
/// from power 1 to p - 1 are 1 and -1 in turn. There f = x + x^2 and on, f^p = -x + (1 - x)f and
/// (x^(p - 1) - x^p)f(x) - (1 + x^(p - 1) - x^p)f(x^p) + f(x^(p^2)) = 0.
pub fn binomial_case(tally: &mut Tally, random: &mut Random) {
    for p in [3, 5, 7, 11, 13, 101] {
        let step = p as usize;
        let signs = (1..step).map(|k| if k % 2 == 1 { 1 } else { -1 });
        let g: Vec<i64> = std::iter::once(0).chain(signs).collect();
        for n in [3, step, step + 1, (2 * step * step).min(4096), 1000] {
            let f = by_frobenius(step, n);
            let found = reversed(tally, random, p, n, &modulo(p, &g), &f);
            tally.equal((p, n, "first places"), places(&found, 3), vec![0, 1, 1]);
            let zeros = vec![0; step - 2];
            let first = modulo(p, &[&[0], &zeros[..], &[1, -1]].concat());
            let second = modulo(p, &[&[-1], &zeros[..], &[-1, 1]].concat());
            let terms = [(first, 1), (second, step), (vec![1], step * step)];
            tally.equal((p, n, "equation"), mahler(p, &found, &terms), vec![0; n]);
        }
    }
}

/// The f of Example 2 from f(x^p) = f^p = -x + (1 - x)f: f_k - f_(k - 1) is f_(k/p), and 1 more for
/// k = 1.
fn by_frobenius(p: usize, n: usize) -> Vec<u32> {
    let mut f = vec![0; n];
    for k in 1..n {
        let of_power = if k % p == 0 { f[k / p] } else { 0 };
        f[k] = (f[k - 1] + of_power + u32::from(k == 1)) % p as u32;
    }
    f
}
