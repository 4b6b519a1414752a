//! The job program, run as a process: the file goes to its standard input, and all that it writes to
//! standard output is the answer.

use crate::checks::library::{Plain, Program};
use crate::checks::support::Tally;
use crate::plain::random::Random;
use std::io::{ErrorKind, Write};
use std::process::{Child, Command, Stdio};

pub const PROGRAM: &str = "target/bin/job_program";

/// How many files are damaged or made of random bytes.
const FILES: usize = 1500;

/// The program as it is built.
pub struct Built;

impl Program for Built {
    fn answer(file: &[u8]) -> Vec<u8> {
        let mut child = start(Stdio::piped());
        let mut input = child.stdin.take().expect("standard input");
        match input.write_all(file) {
            // it reads one byte more than the longest file, and no further
            Err(error) if error.kind() == ErrorKind::BrokenPipe => (),
            written => written.expect("a write to the program"),
        }
        drop(input);
        answered(child)
    }
}

/// The program with this standard input.
pub fn start(input: Stdio) -> Child {
    let mut command = Command::new(PROGRAM);
    command.stdin(input).stdout(Stdio::piped()).stderr(Stdio::piped());
    command.spawn().expect("the job program")
}

/// What the program printed, when it has read and written without a failure.
pub fn answered(child: Child) -> Vec<u8> {
    let output = child.wait_with_output().expect("the program's output");
    assert!(output.status.success(), "{:?}", output.status);
    assert!(output.stderr.is_empty(), "{:?}", output.stderr);
    output.stdout
}

fn same(tally: &mut Tally, file: &[u8]) {
    tally.equal(file, Built::answer(file), Plain::answer(file));
}

/// A small job with p = 7 whose lists follow the header.
pub fn small_job(random: &mut Random) -> Vec<u8> {
    let (m, count) = (random.count(0, 6), random.count(0, 6));
    let (route, n) = (random.route() as u32, random.count(1, 8) as u32);
    let header = [route, 7, n, m as u32, 28, count as u32, 28 + 4 * m as u32];
    let numbers = header.into_iter().chain(random.list(7, m)).chain(random.list(7, count));
    numbers.flat_map(u32::to_le_bytes).collect()
}

/// Files with some bytes changed, and files of random bytes.
pub fn damaged(tally: &mut Tally, random: &mut Random) {
    for _ in 0..FILES {
        let mut file = small_job(random);
        for _ in 0..random.count(1, 3) {
            let place = random.count(0, file.len() - 1);
            let any = random.below(256) as u8;
            file[place] = random.pick(&[0, 1, 7, 64, 65, 255, any]);
        }
        same(tally, &file);
        let length = random.count(0, 80);
        let bytes: Vec<u8> = (0..length).map(|_| random.below(3) as u8).collect();
        same(tally, &bytes);
    }
}

/// Files as long as the longest that is taken, and much longer ones.
pub fn long_files(tally: &mut Tally, random: &mut Random) {
    for length in [4095, 4096, 4097, 4098, 8192, 100_000, 1_000_000] {
        let mut file = small_job(random);
        file.resize(length, 0);
        tally.equal(length, Built::answer(&file), Plain::answer(&file));
    }
}
