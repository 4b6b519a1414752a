//! A seeded generator (splitmix64), and what the checks draw from it.

use super::primes::{is_prime, LARGEST_MODULUS, LARGE_PRIMES};

pub struct Random {
    state: u64,
}

impl Random {
    pub fn new(seed: u64) -> Random {
        Random { state: seed }
    }

    pub fn next(&mut self) -> u64 {
        self.state = self.state.wrapping_add(0x9e37_79b9_7f4a_7c15);
        let first = (self.state ^ (self.state >> 30)).wrapping_mul(0xbf58_476d_1ce4_e5b9);
        let second = (first ^ (first >> 27)).wrapping_mul(0x94d0_49bb_1331_11eb);
        second ^ (second >> 31)
    }

    pub fn below(&mut self, bound: u64) -> u64 {
        self.next() % bound
    }

    /// True once in so many times.
    pub fn once_in(&mut self, times: u64) -> bool {
        self.below(times) == 0
    }

    /// A count from the first to the last, both included.
    pub fn count(&mut self, first: usize, last: usize) -> usize {
        first + self.below((last - first + 1) as u64) as usize
    }

    pub fn pick<T: Copy>(&mut self, choices: &[T]) -> T {
        choices[self.count(0, choices.len() - 1)]
    }

    /// A route, from 1 to 4.
    pub fn route(&mut self) -> u64 {
        1 + self.below(4)
    }

    /// A block length that route 2 takes, often a short one.
    pub fn block(&mut self) -> u64 {
        let longest = self.pick(&[9, 64]);
        1 + self.below(longest)
    }

    /// A block length that this route takes, or none: route 2 takes 1 to 64, another route any.
    pub fn block_of(&mut self, route: u64) -> Option<u64> {
        let fit = self.block();
        let any = self.pick(&[fit, 0, 65, u64::from(u32::MAX), u64::MAX]);
        let taken = if route == 2 { fit } else { any };
        (!self.once_in(3)).then_some(taken)
    }

    /// A prime above 2^31: one of `LARGE_PRIMES`, or the first one from any such number downwards.
    pub fn large_prime(&mut self) -> u64 {
        let first = LARGE_PRIMES[0];
        let any = first + self.below(LARGEST_MODULUS - first + 1);
        let from = if self.once_in(2) { any } else { self.pick(&LARGE_PRIMES) };
        (first..=from).rev().find(|&number| is_prime(number)).expect("the first of them")
    }

    /// A number below p; 0 and p - 1 come often.
    pub fn coefficient(&mut self, p: u64) -> u32 {
        let number = match self.below(6) {
            0 | 1 => 0,
            2 => p - 1,
            _ => self.below(p),
        };
        number as u32
    }

    /// A number from 1 to p - 1.
    pub fn non_zero(&mut self, p: u64) -> u32 {
        (1 + self.below(p - 1)) as u32
    }

    /// A list of this many coefficients.
    pub fn list(&mut self, p: u64, count: usize) -> Vec<u32> {
        (0..count).map(|_| self.coefficient(p)).collect()
    }

    /// A buffer of this many places with any content.
    pub fn buffer(&mut self, count: usize) -> Vec<u32> {
        (0..count).map(|_| self.next() as u32).collect()
    }
}
