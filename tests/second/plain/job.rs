//! The job file: a header of seven 32-bit little-endian numbers and two lists, and the run of a job
//! from the file's bytes to the printed bytes.

use super::{refusals, render, routes};

pub const HEADER_BYTES: usize = 28;
pub const LONGEST_FILE: usize = 4096;

pub struct Header {
    pub route: u32,
    pub modulus: u32,
    pub order: u32,
    pub outer_count: u32,
    pub outer_offset: u32,
    pub inner_count: u32,
    pub inner_offset: u32,
}

impl Header {
    /// The header; a file shorter than a header has none.
    pub fn read(file: &[u8]) -> Option<Header> {
        let numbers = words(file.get(..HEADER_BYTES)?);
        Some(Header {
            route: numbers[0],
            modulus: numbers[1],
            order: numbers[2],
            outer_count: numbers[3],
            outer_offset: numbers[4],
            inner_count: numbers[5],
            inner_offset: numbers[6],
        })
    }
}

pub struct Job {
    pub route: u64,
    pub modulus: u64,
    pub order: u64,
    pub outer: Vec<u32>,
    pub inner: Vec<u32>,
}

impl Job {
    /// The job, unless the header is cut short or a list is misplaced.
    pub fn read(file: &[u8]) -> Option<Job> {
        let header = Header::read(file)?;
        Some(Job {
            route: u64::from(header.route),
            modulus: u64::from(header.modulus),
            order: u64::from(header.order),
            outer: list(file, header.outer_count, header.outer_offset)?,
            inner: list(file, header.inner_count, header.inner_offset)?,
        })
    }
}

/// The list at this offset. An empty list's offset isn't read; that of another is at least 28, and
/// the list lies wholly in the file.
fn list(file: &[u8], count: u32, offset: u32) -> Option<Vec<u32>> {
    if count == 0 {
        return Some(Vec::new());
    }
    let (first, bytes) = (offset as usize, 4 * count as usize);
    if first < HEADER_BYTES {
        return None;
    }
    Some(words(file.get(first..first + bytes)?))
}

fn words(bytes: &[u8]) -> Vec<u32> {
    let word = |four: &[u8]| four.iter().rev().fold(0, |value, &byte| value << 8 | u32::from(byte));
    bytes.chunks(4).map(word).collect()
}

/// The bytes that the job program prints for a file, which has no block length of its own.
pub fn run(file: &[u8]) -> Vec<u8> {
    let number = refusals::job(file);
    match Job::read(file) {
        Some(Job { route, modulus, order, outer, inner }) if number == 0 => {
            let (n, length) = (order as usize, routes::BLOCK_LENGTH);
            let (value, weight) = routes::by_number(route, modulus, &outer, &inner, n, length);
            render::text(0, order, weight, &value)
        }
        _ => render::text(number, 0, 0, &[]),
    }
}
