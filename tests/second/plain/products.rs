//! Products of series in one and in two variables, each given with the number of places it was cut
//! to, and the sum and the quotient, which count nothing.
//!
//! A series in two variables is a list of rows: row j holds the coefficients, in x, of y^j.

use super::field;
use std::ops::Range;

/// a·b modulo x^n, and the n places it was cut to.
pub fn product(p: u64, a: &[u32], b: &[u32], n: usize) -> (Vec<u32>, u64) {
    let mut value = vec![0; n];
    add_product(p, &mut value, a, b);
    (value, n as u64)
}

/// The rows of a·b at the powers of y in the window, modulo x^n, moved down to row 0, and the
/// places they were cut to: n for each power of y kept.
pub fn product_in_two_variables(
    p: u64,
    a: &[Vec<u32>],
    b: &[Vec<u32>],
    n: usize,
    window: Range<usize>,
) -> (Vec<Vec<u32>>, u64) {
    let mut rows = vec![vec![0; n]; window.len()];
    for (i, row_of_a) in a.iter().enumerate() {
        for (j, row_of_b) in b.iter().enumerate() {
            if window.contains(&(i + j)) {
                add_product(p, &mut rows[i + j - window.start], row_of_a, row_of_b);
            }
        }
    }
    let places = (n * rows.len()) as u64;
    (rows, places)
}

/// Adds a·b to the target, cut to the target's places; a remainder is taken after each term.
fn add_product(p: u64, target: &mut [u32], a: &[u32], b: &[u32]) {
    let n = target.len();
    for (i, &x) in a.iter().enumerate().take(n) {
        for (place, &y) in target[i..].iter_mut().zip(b) {
            *place = field::remainder(p, u64::from(*place) + u64::from(x) * u64::from(y));
        }
    }
}

/// a + b, place for place, for lists of one length.
pub fn sum(p: u64, a: &[u32], b: &[u32]) -> Vec<u32> {
    a.iter().zip(b).map(|(&x, &y)| field::add(p, x, y)).collect()
}

/// The quotient a/b below the power a.len(), for b with constant term 1.
pub fn quotient(p: u64, a: &[u32], b: &[u32]) -> Vec<u32> {
    let mut value: Vec<u32> = Vec::with_capacity(a.len());
    for (k, &coefficient) in a.iter().enumerate() {
        let known = (1..b.len().min(k + 1)).fold(coefficient, |rest, i| {
            field::subtract(p, rest, field::multiply(p, b[i], value[k - i]))
        });
        value.push(known);
    }
    value
}

/// The list as n places: cut, or filled up with zeros.
pub fn places(list: &[u32], n: usize) -> Vec<u32> {
    (0..n).map(|i| list.get(i).copied().unwrap_or(0)).collect()
}

/// x^step for x in the list, cut to n places.
pub fn spread(list: &[u32], step: usize, n: usize) -> Vec<u32> {
    let mut value = vec![0; n];
    for (place, &coefficient) in value.iter_mut().step_by(step).zip(list) {
        *place = coefficient;
    }
    value
}
