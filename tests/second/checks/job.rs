//! The job program: files written from known lists, whole or broken on purpose, and what is
//! printed for them.

use super::broken::{first, put_too_large, rising, some, UNFIT_MODULI};
use super::library::Program;
use super::render::{accepted_text, refused_text};
use super::support::{modulus, seen, weight, Tally};
use crate::plain::primes::LARGE_PRIMES;
use crate::plain::random::Random;
use crate::plain::refusals::JOB;
use crate::plain::substitution::substitution;
use crate::plain::weights;

const FILES: usize = 4000;

/// Files of which every beginning is tried, and files with overlapping lists.
const CUT_FILES: usize = 40;
const OVERLAPPING_FILES: usize = 400;

/// With bytes below 64 every number, at any offset, is below this modulus.
const LARGE_MODULUS: u64 = 2_147_483_647;

/// A file in the making: the header's numbers and all that follows.
#[derive(Debug)]
struct File {
    header: [u32; 7],
    rest: Vec<u8>,
}

const ROUTE: usize = 0;
const MODULUS: usize = 1;
const ORDER: usize = 2;

/// The places of the two counts; each is followed by its list's offset.
const COUNTS: [usize; 2] = [3, 5];

impl File {
    /// A file with these lists and some spare bytes. Where g is the end of f, the lists overlap.
    fn write(random: &mut Random, lead: [u32; 3], f: &[u32], g: &[u32]) -> File {
        let [route, modulus, order] = lead;
        let mut file = File { header: [0; 7], rest: Vec::new() };
        let (m, inner_count) = (f.len() as u32, g.len() as u32);
        let outer = file.add(random, f);
        let overlaps = inner_count > 0 && f.ends_with(g);
        let inner = if overlaps { outer + 4 * (m - inner_count) } else { file.add(random, g) };
        file.header = [route, modulus, order, m, outer, inner_count, inner];
        file.add_spare_bytes(random);
        file
    }

    /// Adds spare bytes and then the list; its offset. An empty list is given any offset.
    fn add(&mut self, random: &mut Random, list: &[u32]) -> u32 {
        self.add_spare_bytes(random);
        let offset = 28 + self.rest.len() as u32;
        self.rest.extend(list.iter().flat_map(|number| number.to_le_bytes()));
        if list.is_empty() {
            return random.pick(&[0, 27, 28, 5000, u32::MAX]);
        }
        offset
    }

    fn add_spare_bytes(&mut self, random: &mut Random) {
        let count = random.count(0, 5);
        self.rest.extend((0..count).map(|_| random.next() as u8));
    }

    /// Alters the file in one of the ways that 1, 2, 3, 12 or 13 names.
    fn alter(&mut self, random: &mut Random, number: u32) {
        let end = 28 + self.rest.len() as u32;
        match number {
            1 => self.header[ROUTE] = random.pick(&[0, 5, 257, u32::MAX]),
            2 => self.header[MODULUS] = random.pick(&UNFIT_MODULI) as u32,
            3 => self.header[ORDER] = 0,
            12 => match random.below(3) {
                0 => self.rest.resize(4096 - 28 + random.count(1, 40), 0),
                1 => self.header[random.pick(&COUNTS)] = random.pick(&[65, u32::MAX]),
                _ => self.header[ORDER] = random.pick(&[65, 4097, u32::MAX]),
            },
            13 => {
                let filled = COUNTS.into_iter().filter(|&place| self.header[place] > 0);
                let count = random.pick(&filled.collect::<Vec<usize>>());
                let last = end.saturating_sub(self.header[count].saturating_mul(4));
                let misplaced = [0, 27, last + 1, end, u32::MAX, u32::MAX - 3];
                self.header[count + 1] = random.pick(&misplaced);
            }
            _ => (),
        }
    }

    /// The first byte after the lists that are not empty, and after the header.
    fn end(&self) -> usize {
        let ends = COUNTS.map(|place| match self.header[place] {
            0 => 28,
            count => self.header[place + 1] + 4 * count,
        });
        ends[0].max(ends[1]) as usize
    }

    fn bytes(&self) -> Vec<u8> {
        let header = self.header.iter().flat_map(|number| number.to_le_bytes());
        header.chain(self.rest.iter().copied()).collect()
    }
}

pub fn job<P: Program>(tally: &mut Tally, random: &mut Random) {
    for _ in 0..FILES {
        let broken = some(random, JOB);
        written::<P>(tally, random, &broken);
    }
    for &number in JOB {
        for _ in 0..20 {
            written::<P>(tally, random, &[number]);
        }
    }
    cut_short::<P>(tally, random);
}

fn written<P: Program>(tally: &mut Tally, random: &mut Random, broken: &[u32]) {
    let (p, n) = (modulus(random), random.count(1, 64));
    let (m, inner_count) = (random.count(0, 24), random.count(0, 24));
    let (mut f, mut g) = (random.list(p, m), random.list(p, inner_count));
    if broken.contains(&13) {
        f.push(0);
    }
    if broken.contains(&8) {
        let either = if random.once_in(2) { &mut f } else { &mut g };
        put_too_large(random, p, either);
    } else if !f.is_empty() && random.once_in(4) {
        g = f[random.count(0, f.len() - 1)..].to_vec();
    }
    let route = random.route();
    let mut file = File::write(random, [route as u32, p as u32, n as u32], &f, &g);
    for number in rising(broken) {
        file.alter(random, number);
    }
    let wanted = if broken.is_empty() {
        composed_text(route, p, n, &f, &g)
    } else {
        refused_text(first(JOB, broken))
    };
    tally.equal((broken, &file), P::answer(&file.bytes()), wanted);
}

/// The printed answer of an accepted job, by the definition of substitution and the rule of the weight.
fn composed_text(route: u64, p: u64, n: usize, f: &[u32], g: &[u32]) -> Vec<u8> {
    accepted_text(n as u64, weight(route, p, f.len(), n), &substitution(p, f, g, n))
}

/// Primes above 2^31 by every route, with any and with the largest coefficients; a modulus that is no
/// prime gives 2.
pub fn large_primes<P: Program>(tally: &mut Tally, random: &mut Random) {
    for (p, route) in LARGE_PRIMES.into_iter().flat_map(|p| (1..=4).map(move |route| (p, route))) {
        let largest = vec![(p - 1) as u32; 64];
        for (f, g) in [(random.list(p, 24), random.list(p, 24)), (largest.clone(), largest)] {
            let n = random.count(1, 64);
            let file = File::write(random, [route as u32, p as u32, n as u32], &f, &g);
            tally.equal(&file, P::answer(&file.bytes()), composed_text(route, p, n, &f, &g));
        }
    }
    for p in UNFIT_MODULI {
        let file = File::write(random, [1, p as u32, 4], &[0, 1], &[0]);
        tally.equal(&file, P::answer(&file.bytes()), refused_text(2));
    }
}

/// Route 2 with every count of outer coefficients: the weight is that of block length 4, which mostly
/// differs from those of other lengths.
pub fn block_length<P: Program>(tally: &mut Tally, random: &mut Random) {
    let mut different = 0;
    for m in 0..=64 {
        let (p, n) = (modulus(random), random.count(1, 64));
        let (f, g) = (random.list(p, m), random.list(p, n));
        let file = File::write(random, [2, p as u32, n as u32], &f, &g);
        tally.equal(&file, P::answer(&file.bytes()), composed_text(2, p, n, &f, &g));
        let other = |length| weights::ranged(m as u64, n as u64, length) != weight(2, p, m, n);
        different += (1..=64).filter(|&length| other(length)).count();
    }
    seen(tally, "block lengths with another weight", different);
}

/// Every beginning of a file: 13 until the header and both lists lie in it, then the whole answer.
pub fn beginnings<P: Program>(tally: &mut Tally, random: &mut Random) {
    for _ in 0..CUT_FILES {
        let (route, p, n) = (random.route(), modulus(random), random.count(1, 16));
        let (m, inner_count) = (random.count(0, 9), random.count(0, 9));
        let (f, g) = (random.list(p, m), random.list(p, inner_count));
        let file = File::write(random, [route as u32, p as u32, n as u32], &f, &g);
        let (bytes, whole) = (file.bytes(), composed_text(route, p, n, &f, &g));
        for length in 0..=bytes.len() {
            let wanted = if length < file.end() { refused_text(13) } else { whole.clone() };
            tally.equal((&file, length), P::answer(&bytes[..length]), wanted);
        }
    }
}

/// Lists that overlap in any way, at offsets that need not be multiples of 4.
pub fn overlaps<P: Program>(tally: &mut Tally, random: &mut Random) {
    for _ in 0..OVERLAPPING_FILES {
        let counts = [random.count(1, 12), random.count(1, 12)];
        let rest: Vec<u8> = (0..64).map(|_| random.below(64) as u8).collect();
        let starts = counts.map(|count| random.count(0, rest.len() - 4 * count));
        let lists = [0, 1].map(|i| {
            let numbers = rest[starts[i]..].chunks(4).take(counts[i]);
            numbers.map(|four| u32::from_le_bytes(four.try_into().unwrap())).collect::<Vec<u32>>()
        });
        let (route, n) = (random.route(), random.count(1, 12));
        let [outer, inner] = starts.map(|start| 28 + start as u32);
        let [m, inner_count] = counts.map(|count| count as u32);
        let lead = [route as u32, LARGE_MODULUS as u32, n as u32];
        let header = [lead[0], lead[1], lead[2], m, outer, inner_count, inner];
        let file = File { header, rest };
        let wanted = composed_text(route, LARGE_MODULUS, n, &lists[0], &lists[1]);
        tally.equal(&file, P::answer(&file.bytes()), wanted);
    }
}

/// Offsets far past the file, up to those whose list would end past 2^32: 13 for every count.
pub fn far_offsets<P: Program>(tally: &mut Tally, _: &mut Random) {
    for count in 1..=64u32 {
        let wrapped = u32::MAX - 4 * count;
        let near = [0, 1, 2, 28, 29, 80, 81].map(|more| wrapped.saturating_add(more));
        let far = [1 << 31, (1 << 31) + 28, 1 << 16, 4096, u32::MAX - 3, u32::MAX];
        for offset in near.into_iter().chain(far) {
            for place in COUNTS {
                let mut header = [1, 7, 4, 0, 0, 0, 0];
                (header[place], header[place + 1]) = (count, offset);
                let file = File { header, rest: vec![0; 4 * 64] };
                tally.equal(&file, P::answer(&file.bytes()), refused_text(13));
            }
        }
    }
}

/// A header that is cut short states no order and no count; at 28 bytes it does.
fn cut_short<P: Program>(tally: &mut Tally, random: &mut Random) {
    let too_large = File { header: [1, 7, 65, 65, 28, 65, 28], rest: Vec::new() }.bytes();
    let header = [random.route() as u32, 7, 2, 0, 0, 0, 0];
    let empty_lists = File { header, rest: Vec::new() }.bytes();
    for length in 0..28 {
        tally.equal(length, P::answer(&too_large[..length]), refused_text(13));
        tally.equal(length, P::answer(&empty_lists[..length]), refused_text(13));
    }
    tally.equal(&too_large, P::answer(&too_large), refused_text(12));
    tally.equal(&empty_lists, P::answer(&empty_lists), accepted_text(2, 0, &[0, 0]));
    for (length, number) in [(4096, 0), (4097, 12)] {
        let padded = [empty_lists.clone(), vec![255; length - 28]].concat();
        let wanted = if number == 0 { accepted_text(2, 0, &[0, 0]) } else { refused_text(number) };
        tally.equal(("bytes", length), P::answer(&padded), wanted);
    }
}
