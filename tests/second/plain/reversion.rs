//! The reverse series by undetermined coefficients: h has constant term 0 and g(h) = x modulo x^n.

use super::field;

/// The reverse of g at order n. At n = 1 the constant term of g is zero; from n = 2 its linear
/// coefficient is also non-zero.
///
/// Coefficient k of g(h) is g_1·h_k plus the sum over i from 2 of g_i times coefficient k of h^i,
/// and this sum is known from h_1 to h_(k - 1). So the defect from x gives h_k.
pub fn reverse(p: u64, g: &[u32], n: usize) -> Vec<u32> {
    let count = g.len().min(n).max(2);
    let mut powers = vec![vec![0; n]; count];
    for k in 1..n {
        let mut defect = u32::from(k == 1);
        for i in 2..count.min(k + 1) {
            powers[i][k] = coefficient_of_power(p, &powers, i, k);
            defect = field::subtract(p, defect, field::multiply(p, g[i], powers[i][k]));
        }
        powers[1][k] = field::multiply(p, defect, field::inverse(p, g[1]));
    }
    powers.swap_remove(1)
}

/// Coefficient k of h^i = h·h^(i - 1), for i from 2, where row j holds the coefficients of h^j that
/// are known so far. As h has no constant term, h^(i - 1) begins at the power i - 1.
fn coefficient_of_power(p: u64, powers: &[Vec<u32>], i: usize, k: usize) -> u32 {
    (1..k + 2 - i).fold(0, |sum, j| {
        let term = field::multiply(p, powers[1][j], powers[i - 1][k - j]);
        field::add(p, sum, term)
    })
}
