//! Arithmetic modulo p on numbers below p: sum, difference, product, power, inverse.

pub fn add(p: u64, a: u32, b: u32) -> u32 {
    remainder(p, u64::from(a) + u64::from(b))
}

pub fn subtract(p: u64, a: u32, b: u32) -> u32 {
    remainder(p, u64::from(a) + p - u64::from(b))
}

pub fn multiply(p: u64, a: u32, b: u32) -> u32 {
    remainder(p, u64::from(a) * u64::from(b))
}

/// a to the exponent, by the exponent's binary digits; a^0 is 1, for a = 0 too.
pub fn power(p: u64, a: u32, exponent: u64) -> u32 {
    let mut value = remainder(p, 1);
    let mut square = a;
    let mut digits = exponent;
    while digits > 0 {
        if digits % 2 == 1 {
            value = multiply(p, value, square);
        }
        square = multiply(p, square, square);
        digits /= 2;
    }
    value
}

/// The inverse of a non-zero a, as a^(p - 2); p is prime.
pub fn inverse(p: u64, a: u32) -> u32 {
    power(p, a, p - 2)
}

pub fn remainder(p: u64, a: u64) -> u32 {
    (a % p) as u32
}
