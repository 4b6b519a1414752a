//! Primality by trial division, the table of the sixteen largest primes below 2^31, and some primes
//! above it.

pub const LARGEST_MODULUS: u64 = 4_294_967_295;

/// The largest prime up to the largest modulus.
pub const LARGEST_PRIME: u64 = 4_294_967_291;

/// Primes above 2^31: the first, and the last two up to the largest modulus.
pub const LARGE_PRIMES: [u64; 3] = [2_147_483_659, 4_294_967_279, LARGEST_PRIME];

pub const TABLE_LENGTH: usize = 16;

/// No number from 2 to the square root divides it; apart from 2, the odd ones are tried.
pub fn is_prime(number: u64) -> bool {
    let mut odd = (3..).step_by(2).take_while(|d| d * d <= number);
    number == 2 || number > 2 && number % 2 == 1 && odd.all(|d| number % d != 0)
}

/// The sixteen largest primes below 2147483648, largest first.
pub fn table() -> Vec<u32> {
    let below = (0..1u32 << 31).rev();
    below.filter(|&number| is_prime(u64::from(number))).take(TABLE_LENGTH).collect()
}
