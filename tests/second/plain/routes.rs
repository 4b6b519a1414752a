//! The four routes for f(g) modulo x^n. Each is carried out step by step as it is stated, and its
//! weight is the sum of the places that its own products gave back.

use super::counts::quotient_rounded_up;
use super::field;
use super::products::{places, product, product_in_two_variables, quotient, spread, sum};

/// The block length of route 2 where none is given.
pub const BLOCK_LENGTH: u64 = 4;

/// f(g) modulo x^n and the weight, by the route with this number, from 1 to 4, with this block
/// length for route 2.
pub fn by_number(
    route: u64,
    p: u64,
    f: &[u32],
    g: &[u32],
    n: usize,
    length: u64,
) -> (Vec<u32>, u64) {
    match route {
        1 => horner(p, f, g, n),
        2 => ranged(p, f, g, n, length as usize),
        3 => bernstein(p, f, g, n),
        4 => kinoshita_li(p, f, g, n),
        _ => panic!("route {route}"),
    }
}

/// Route 1: from the top coefficient, multiply by g and add the next.
pub fn horner(p: u64, f: &[u32], g: &[u32], n: usize) -> (Vec<u32>, u64) {
    horner_of_series(p, f.iter().map(|&coefficient| places(&[coefficient], n)), g, n)
}

/// The sum of s_j·g^j over the given series s_j: from the last, multiply by g and add the next.
fn horner_of_series(
    p: u64,
    series: impl DoubleEndedIterator<Item = Vec<u32>>,
    g: &[u32],
    n: usize,
) -> (Vec<u32>, u64) {
    let mut remaining = series.rev();
    let mut value = remaining.next().unwrap_or(vec![0; n]);
    let mut weight = 0;
    for next in remaining {
        let (multiplied, cut) = product(p, &value, g, n);
        value = sum(p, &multiplied, &next);
        weight += cut;
    }
    (value, weight)
}

/// Route 2: blocks of f of this length by Horner, then neighbours joined level by level.
pub fn ranged(p: u64, f: &[u32], g: &[u32], n: usize, length: usize) -> (Vec<u32>, u64) {
    let blocks = f.chunks(length).map(|block| horner(p, block, g, n));
    let (mut values, weights): (Vec<_>, Vec<_>) = blocks.unzip();
    let mut weight = weights.iter().sum();
    if values.len() > 1 {
        let (mut power, cut) = power_of_series(p, g, length, n);
        weight += cut;
        while values.len() > 1 {
            let (joined, cut) = join_neighbours(p, &values, &power, n);
            values = joined;
            weight += cut;
            if values.len() > 1 {
                let (square, cut) = product(p, &power, &power, n);
                power = square;
                weight += cut;
            }
        }
    }
    (values.pop().unwrap_or(vec![0; n]), weight)
}

/// g to an exponent of at least 1: for each binary digit after the first a squaring, and for each
/// of those digits that is 1 a product by g.
fn power_of_series(p: u64, g: &[u32], exponent: usize, n: usize) -> (Vec<u32>, u64) {
    let mut value = places(g, n);
    let mut weight = 0;
    let digits = usize::BITS - exponent.leading_zeros();
    for digit in (0..digits - 1).rev() {
        let (square, cut) = product(p, &value, &value, n);
        value = square;
        weight += cut;
        if (exponent >> digit) % 2 == 1 {
            let (multiplied, cut) = product(p, &value, g, n);
            value = multiplied;
            weight += cut;
        }
    }
    (value, weight)
}

/// even + odd·G for each pair of neighbours; a last one without partner passes on.
fn join_neighbours(p: u64, values: &[Vec<u32>], power: &[u32], n: usize) -> (Vec<Vec<u32>>, u64) {
    let mut weight = 0;
    let mut joined = Vec::new();
    for pair in values.chunks(2) {
        joined.push(match pair {
            [even, odd] => {
                let (multiplied, cut) = product(p, odd, power, n);
                weight += cut;
                sum(p, even, &multiplied)
            }
            _ => pair[0].clone(),
        });
    }
    (joined, weight)
}

/// Route 3: f split by powers modulo p, the parts composed at order n/p rounded up with the series
/// of p-th powers, spread to x^p, and joined by Horner in g.
pub fn bernstein(p: u64, f: &[u32], g: &[u32], n: usize) -> (Vec<u32>, u64) {
    if f.len() <= 1 {
        return (places(f, n), 0);
    }
    let parts = p.min(f.len() as u64) as usize;
    let order = quotient_rounded_up(n, p as usize);
    let powers: Vec<u32> = g.iter().take(order).map(|&c| field::power(p, c, p)).collect();
    let mut weight = 0;
    let mut spread_parts = Vec::new();
    for j in 0..parts {
        let part: Vec<u32> = f[j..].iter().step_by(p as usize).copied().collect();
        let (value, below) = bernstein(p, &part, &powers, order);
        spread_parts.push(spread(&value, p as usize, n));
        weight += below;
    }
    let (value, joining) = horner_of_series(p, spread_parts.into_iter(), g, n);
    (value, weight + joining)
}

/// Route 4: the power m - 1 of y in P/Q, where P is f reversed and Q is 1 - y·g.
pub fn kinoshita_li(p: u64, f: &[u32], g: &[u32], n: usize) -> (Vec<u32>, u64) {
    if f.is_empty() {
        return (vec![0; n], 0);
    }
    let top = f.len() - 1;
    let numerator: Vec<u32> = f.iter().rev().copied().collect();
    let negated = places(g, n).iter().map(|&c| field::subtract(p, 0, c)).collect();
    let mut denominator = vec![places(&[1], n), negated];
    denominator.truncate(top.min(1) + 1);
    let (mut window, weight) = level(p, &numerator, &denominator, top, n);
    (window.remove(0), weight)
}

/// The powers d to m - 1 of y in P/Q modulo x^r, moved down to 0. Q has its powers of y up to q.
fn level(
    p: u64,
    numerator: &[u32],
    denominator: &[Vec<u32>],
    d: usize,
    r: usize,
) -> (Vec<Vec<u32>>, u64) {
    let m = numerator.len();
    if r == 1 {
        let at_zero: Vec<u32> = denominator.iter().map(|row| row[0]).collect();
        let kept = quotient(p, numerator, &at_zero).split_off(d);
        return (kept.iter().map(|&coefficient| vec![coefficient]).collect(), 0);
    }
    let q = denominator.len() - 1;
    let next_q = (2 * q).min(m - 1);
    let e = d.saturating_sub(q);
    let mirrored: Vec<Vec<u32>> = denominator.iter().map(|row| mirror(p, row)).collect();
    let (norm, first) = product_in_two_variables(p, denominator, &mirrored, r, 0..next_q + 1);
    let even: Vec<Vec<u32>> =
        norm.iter().map(|row| row.iter().step_by(2).copied().collect()).collect();
    let (window, below) = level(p, numerator, &even, e, quotient_rounded_up(r, 2));
    let spread_window: Vec<Vec<u32>> = window.iter().map(|row| spread(row, 2, r)).collect();
    let (kept, second) = product_in_two_variables(p, &spread_window, &mirrored, r, d - e..m - e);
    (kept, first + below + second)
}

/// -x for x in the list.
pub fn mirror(p: u64, list: &[u32]) -> Vec<u32> {
    let mut value = list.to_vec();
    for coefficient in value.iter_mut().skip(1).step_by(2) {
        *coefficient = field::subtract(p, 0, *coefficient);
    }
    value
}
