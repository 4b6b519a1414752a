//! The equations of job files: whole and damaged ones, numbers of all four bytes, and the limits of a file.

use crate::plain::job::{self, Header, Job, HEADER_BYTES, LONGEST_FILE};
use crate::plain::random::Random;
use crate::rows::{list, PRIMES};

pub fn all(random: &mut Random) -> Vec<String> {
    let mut equations = Vec::new();
    for _ in 0..60 {
        equations.push(damaged(random));
    }
    for _ in 0..4 {
        equations.extend(wide(random));
        equations.extend(wide_lists(random));
        equations.push(wrapping(random, 3));
        equations.push(wrapping(random, 5));
    }
    for place in [0, 2, 3, 4, 5, 6] {
        equations.extend((1..4).map(|byte| high_byte(random, place, byte)));
    }
    for length in 12..HEADER_BYTES {
        equations.push(cut_header(random, length));
    }
    for length in LONGEST_FILE - 1..=LONGEST_FILE + 4 {
        equations.extend(long(random, length));
    }
    equations
}

/// The numbers of a job file: the header, and its lists after it.
pub fn numbers(random: &mut Random) -> Vec<u32> {
    let p = random.pick(&PRIMES);
    let (outer, inner) = (random.count(0, 3), random.count(0, 3));
    let (f, g) = (random.list(p, outer), random.list(p, inner));
    let header = [random.route() as u32, p as u32, 1 + random.below(3) as u32];
    let lists = [f.len() as u32, 28, g.len() as u32, 28 + 4 * f.len() as u32];
    [&header[..], &lists, &f, &g].concat()
}

pub fn bytes(numbers: &[u32]) -> Vec<u8> {
    numbers.iter().flat_map(|number| number.to_le_bytes()).collect()
}

fn answer(file: &[u8]) -> String {
    format!("job_text {} ≡ {}", list(file), list(&job::run(file)))
}

/// A file that is whole, cut anywhere, cut within its last number, or with another number in its header, as a count of 65, which is too
/// large and leaves the list past the end.
fn damaged(random: &mut Random) -> String {
    let mut file = bytes(&numbers(random));
    match random.below(4) {
        0 => file.truncate(random.count(0, file.len())),
        1 => file.truncate(file.len() - random.count(1, 4)),
        2 => {
            let any = random.below(80) as u8;
            file[4 * random.count(2, 6)] = random.pick(&[any, 27, 64, 65]);
        }
        _ => {}
    }
    answer(&file)
}

/// The numbers of a header of any bytes.
fn wide(random: &mut Random) -> Vec<String> {
    let file = bytes(&random.buffer(7));
    let header = Header::read(&file).expect("a whole header");
    let read = [
        header.route,
        header.modulus,
        header.order,
        header.outer_count,
        header.outer_offset,
        header.inner_count,
        header.inner_offset,
    ];
    let shown = list(&file);
    (0..).zip(read).map(|(place, number)| format!("field {shown} {place} ≡ {number}")).collect()
}

/// Lists of numbers of any bytes, the inner one from any place on, over the outer one or past it.
fn wide_lists(random: &mut Random) -> [String; 2] {
    let from = 28 + random.below(12) as u32;
    let header = [1, 2, 1, 2, 28, 2, from];
    let file = bytes(&[&header[..], &random.buffer(5)].concat());
    let job = Job::read(&file).expect("lists in the file");
    let shown = list(&file);
    [
        format!("outer {shown} ≡ {}", list(&job.outer)),
        format!("inner {shown} ≡ {}", list(&job.inner)),
    ]
}

/// A list, its count at this place of the header, whose end is 2^32 or a little more.
fn wrapping(random: &mut Random, place: usize) -> String {
    let mut file = numbers(random);
    let count = 1 + random.below(3) as u32;
    file[place] = count;
    file[place + 1] = (4 * count).wrapping_neg() + random.below(4 * u64::from(count)) as u32;
    answer(&bytes(&file))
}

/// One of the upper three bytes of a number of the header is not zero. The modulus is not among them: its primality would be computed.
fn high_byte(random: &mut Random, place: usize, byte: usize) -> String {
    let mut file = bytes(&numbers(random));
    file[4 * place + byte] = 1 + random.below(255) as u8;
    answer(&file)
}

/// A header cut short, at a length at which it states an order, and perhaps counts, above 64.
fn cut_header(random: &mut Random, length: usize) -> String {
    let mut file = numbers(random);
    for place in [2, 3, 5] {
        file[place] = 65 + random.below(1000) as u32;
    }
    answer(&bytes(&file)[..length])
}

/// A file filled up with zeros to this length, with the inner list in its last places, or one byte further on.
fn long(random: &mut Random, length: usize) -> [String; 2] {
    let numbers = numbers(random);
    [0, 1].map(|further| {
        let mut header = numbers.clone();
        header[5] = 1;
        header[6] = length as u32 - 4 + further;
        let mut file = bytes(&header);
        let spare = length - file.len();
        let shown = format!("({} ++ replicate {spare} 0)", list(&file));
        file.resize(length, 0);
        format!("job_text {shown} ≡ {}", list(&job::run(&file)))
    })
}
