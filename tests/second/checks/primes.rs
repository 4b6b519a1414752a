//! Primality and the table against a sieve.

use super::library::Library;
use super::support::Tally;
use crate::plain::counts::quotient_rounded_up;
use crate::plain::primes::{is_prime, LARGEST_MODULUS, LARGE_PRIMES};
use crate::plain::random::Random;

/// The primes of the table are below this number.
const TABLE_BOUND: u64 = 1 << 31;

/// The primes from the first number, at least 2, to the last: what is left when all multiples of
/// every smaller number have been struck out.
fn sieve(first: u64, last: u64) -> Vec<u64> {
    let mut struck = vec![false; (last - first + 1) as usize];
    for divisor in (2..).take_while(|d| d * d <= last) {
        let start = (2 * divisor).max(quotient_rounded_up(first, divisor) * divisor);
        for multiple in (start..=last).step_by(divisor as usize) {
            struck[(multiple - first) as usize] = true;
        }
    }
    (first..=last).filter(|number| !struck[(number - first) as usize]).collect()
}

pub fn primality(tally: &mut Tally, _: &mut Random) {
    let around = |number: u64| (number - 2000, number + 2000);
    for (first, last) in [(2, 20_000), around(TABLE_BOUND), around(LARGEST_MODULUS)] {
        let primes = sieve(first, last);
        for number in first..=last {
            tally.equal(number, is_prime(number), primes.binary_search(&number).is_ok());
        }
    }
    tally.equal("below 2", (is_prime(0), is_prime(1)), (false, false));
    tally.equal("32 bits", LARGEST_MODULUS, u64::from(u32::MAX));
    let above = sieve(TABLE_BOUND, TABLE_BOUND + 2000)[0];
    let last = sieve(LARGEST_MODULUS - 2000, LARGEST_MODULUS);
    let wanted = [&[above], &last[last.len() - 2..]].concat();
    tally.equal("primes above 2^31", LARGE_PRIMES.to_vec(), wanted);
}

pub fn table<L: Library>(tally: &mut Tally, _: &mut Random) {
    let largest_first = sieve(TABLE_BOUND - 2000, TABLE_BOUND - 1).into_iter().rev();
    for (index, prime) in largest_first.take(16).enumerate() {
        tally.equal(("index", index), L::table(index as u64), (0, prime as u32));
    }
    tally.equal("index 0", L::table(0), (0, 2_147_483_647));
    for index in [16, 17, 1 << 16, u64::from(u32::MAX)] {
        tally.equal(("index", index), L::table(index), (14, 0));
    }
}
