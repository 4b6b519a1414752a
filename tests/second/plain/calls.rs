//! The calls compose, reverse and table, with the buffers they are lent. A refused call alters no
//! buffer. An accepted one fills the output, clears the work places it may use and no others. The
//! block length is that of route 2; a call without one is the call with `routes::BLOCK_LENGTH`.

use super::{primes, refusals, reversion, routes};

#[derive(Clone, Copy, Debug, PartialEq, Eq)]
pub struct Answer {
    pub number: u32,
    pub weight: u64,
}

pub fn compose(
    route: u64,
    block: u64,
    p: u64,
    n: u64,
    f: &[u32],
    g: &[u32],
    out: &mut [u32],
    work: &mut [u32],
) -> Answer {
    let number = refusals::compose(route, block, p, n, f, g, out.len(), work.len());
    if number != 0 {
        return Answer { number, weight: 0 };
    }
    let (value, weight) = routes::by_number(route, p, f, g, n as usize, block);
    out.copy_from_slice(&value);
    work[..refusals::work_places(n, f.len()) as usize].fill(0);
    Answer { number, weight }
}

pub fn reverse(p: u64, n: u64, g: &[u32], out: &mut [u32], work: &mut [u32]) -> Answer {
    let number = refusals::reverse(p, n, g, out.len(), work.len());
    if number == 0 {
        out.copy_from_slice(&reversion::reverse(p, g, n as usize));
        work[..refusals::work_places(n, g.len()) as usize].fill(0);
    }
    Answer { number, weight: 0 }
}

/// The number, and the prime at this index of the table or 0.
pub fn table(index: u64) -> (u32, u32) {
    match refusals::table(index) {
        0 => (0, primes::table()[index as usize]),
        number => (number, 0),
    }
}
