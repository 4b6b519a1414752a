//! f rewritten in powers of (z - c), and the rule that says when two answers are equal.

use super::counts::quotient_rounded_up;
use super::field::{add, multiply};

/// c: the constant term of g.
pub fn constant_term(g: &[u32]) -> u32 {
    g.first().copied().unwrap_or(0)
}

/// v: the least power from 1 to n - 1 with a non-zero coefficient in g, or n if there is none.
pub fn least_power(g: &[u32], n: usize) -> usize {
    (1..n.min(g.len())).find(|&i| g[i] != 0).unwrap_or(n)
}

/// The first coefficients of f in powers of (z - c), as many as the count: coefficient i is the sum
/// over j from i to m - 1 of f_j·c^(j - i) times j over i.
pub fn coefficients(p: u64, f: &[u32], c: u32, count: usize) -> Vec<u32> {
    let mut value = vec![0; count];
    let mut powers = vec![1];
    let mut binomials = vec![1];
    for (j, &coefficient) in f.iter().enumerate() {
        for (i, place) in value.iter_mut().enumerate().take(j + 1) {
            let term = multiply(p, multiply(p, coefficient, powers[j - i]), binomials[i]);
            *place = add(p, *place, term);
        }
        powers.push(multiply(p, powers[j], c));
        binomials = next_row(p, &binomials);
    }
    value
}

/// The row of Pascal's triangle after this one, modulo p.
fn next_row(p: u64, row: &[u32]) -> Vec<u32> {
    let inner = row.windows(2).map(|pair| add(p, pair[0], pair[1]));
    std::iter::once(1).chain(inner).chain(std::iter::once(1)).collect()
}

/// The coefficients that decide the answer: the first n/v, rounded up, in powers of (z - c).
pub fn deciding_coefficients(p: u64, f: &[u32], g: &[u32], n: usize) -> Vec<u32> {
    coefficients(p, f, constant_term(g), quotient_rounded_up(n, least_power(g, n)))
}
