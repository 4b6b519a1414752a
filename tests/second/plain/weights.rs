//! The weight of each route by its rule, from the counts alone.

use super::counts::quotient_rounded_up;

/// The weight of the route with this number, from 1 to 4, with this block length for route 2.
pub fn by_number(route: u64, p: u64, m: u64, n: u64, length: u64) -> u64 {
    match route {
        1 => horner(m, n),
        2 => ranged(m, n, length),
        3 => bernstein(p, m, n),
        4 => kinoshita_li(m, n),
        _ => panic!("route {route}"),
    }
}

/// (m - 1)·n.
pub fn horner(m: u64, n: u64) -> u64 {
    m.saturating_sub(1) * n
}

/// n for each product: m - k in the k blocks; with more than one block those of G, one for each
/// join, and one squaring for each level of joins but the last.
pub fn ranged(m: u64, n: u64, length: u64) -> u64 {
    let blocks = quotient_rounded_up(m, length);
    if blocks <= 1 {
        return (m - blocks) * n;
    }
    let digits_after_first = u64::from(u64::BITS - length.leading_zeros()) - 1;
    let ones_after_first = u64::from(length.count_ones()) - 1;
    let joins = blocks - 1;
    let squarings = halvings(blocks) - 1;
    (m - blocks + digits_after_first + ones_after_first + joins + squarings) * n
}

/// (q - 1)·n and the weights of the q parts at order n/p rounded up, where q = min(p, m).
pub fn bernstein(p: u64, m: u64, n: u64) -> u64 {
    if m <= 1 {
        return 0;
    }
    let parts = p.min(m);
    let order = quotient_rounded_up(n, p);
    let below = (0..parts).map(|j| bernstein(p, quotient_rounded_up(m - j, p), order));
    (parts - 1) * n + below.sum::<u64>()
}

/// The sum of r(q' + 1 + w) over the halvings of n.
pub fn kinoshita_li(m: u64, n: u64) -> u64 {
    if m == 0 {
        return 0;
    }
    let (mut r, mut q, mut d) = (n, 1.min(m - 1), m - 1);
    let mut weight = 0;
    for _ in 0..halvings(n) {
        let next_q = (2 * q).min(m - 1);
        weight += r * (next_q + 1 + (m - d));
        d = d.saturating_sub(q);
        q = next_q;
        r = quotient_rounded_up(r, 2);
    }
    weight
}

/// The least K with 2^K at least the count, which is at least 1.
fn halvings(count: u64) -> u64 {
    (0..).find(|&k| 1 << k >= count).expect("a count below 2^63")
}
