//! f(g) modulo x^n by the definition: the sum of f_i·g^i, the powers of g formed one by one. It
//! uses neither the products nor the arithmetic of the routes: each sum is an exact whole number,
//! and the remainder modulo p comes last. The same for whole polynomials.

/// The n coefficients of f(g), for lists f and g of any length.
pub fn substitution(p: u64, f: &[u32], g: &[u32], n: usize) -> Vec<u32> {
    let mut total = vec![0u128; n];
    let mut power: Vec<u32> = (0..n).map(|k| u32::from(k == 0)).collect();
    for (i, &coefficient) in f.iter().enumerate() {
        if i > 0 {
            power = (0..n).map(|k| product_at(p, &power, g, k)).collect();
        }
        for (sum, &place) in total.iter_mut().zip(&power) {
            *sum += u128::from(coefficient) * u128::from(place);
        }
    }
    total.iter().map(|&sum| (sum % u128::from(p)) as u32).collect()
}

/// All coefficients of f(g), nothing cut: as many as the product of the degrees tells, and one.
pub fn whole(p: u64, f: &[u32], g: &[u32]) -> Vec<u32> {
    let degree = |list: &[u32]| list.iter().rposition(|&place| place != 0).unwrap_or(0);
    let outer = f.get(..=degree(f)).unwrap_or(f);
    substitution(p, outer, g, degree(f) * degree(g) + 1)
}

/// Coefficient k of a·b: the sum of a_(k - j)·b_j, where a has more than k places.
fn product_at(p: u64, a: &[u32], b: &[u32], k: usize) -> u32 {
    let terms = a[..=k].iter().rev().zip(b);
    let sum: u128 = terms.map(|(&x, &y)| u128::from(u64::from(x) * u64::from(y))).sum();
    (sum % u128::from(p)) as u32
}
