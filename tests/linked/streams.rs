//! The reads and writes of the job program: files that arrive in pieces, reads and writes that fail,
//! and what `make run` makes of them. Its status is 0 where they fail too; then it prints nothing, or
//! a part, and the reason stands on standard error.

use crate::checks::library::{Plain, Program};
use crate::checks::support::Tally;
use crate::plain::random::Random;
use crate::program::{answered, small_job, start, PROGRAM};
use std::fs::{self, File};
use std::io::{Error, Write};
use std::os::unix::io::OwnedFd;
use std::os::unix::net::{UnixDatagram, UnixStream};
use std::process::{Command, Output, Stdio};

/// The stored input of the program, the whole case.
const STORED: &str = "crates/job_program/stdin";

/// Where an answer is written that is cut short.
const CUT_SHORT: &str = "target/tests/cut_short";

// the errors of a read or a write, by their numbers on Linux
const NO_DESCRIPTOR: i32 = 9;
const DIRECTORY: i32 = 21;
const TOO_LARGE: i32 = 27;
const NO_SPACE: i32 = 28;
const NO_READER: i32 = 32;
const RESET: i32 = 104;

/// The answer to a file that arrives in pieces of this many bytes. Each is a message, so that no read
/// gives more than one of them, however many wait; an empty one is the end.
fn in_pieces(file: &[u8], bytes: usize) -> Vec<u8> {
    let (ours, theirs) = UnixDatagram::pair().expect("a pair of sockets");
    let child = start(OwnedFd::from(theirs).into());
    for piece in file.chunks(bytes).chain([[].as_slice()]) {
        // a program that has read enough is gone
        if ours.send(piece).is_err() {
            break;
        }
    }
    answered(child)
}

pub fn pieces(tally: &mut Tally, random: &mut Random) {
    for bytes in [1, 2, 3, 5, 27, 28] {
        let file = small_job(random);
        tally.equal((&file, bytes), in_pieces(&file, bytes), Plain::answer(&file));
    }
    for length in [4095, 4096, 4097, 4098] {
        let mut file = small_job(random);
        file.resize(length, 0);
        for bytes in [1, 1000, 4095] {
            tally.equal((length, bytes), in_pieces(&file, bytes), Plain::answer(&file));
        }
    }
}

/// The line on standard error: what failed, and the system's words for the reason.
fn reason(what: &str, number: i32) -> String {
    let words = Error::from_raw_os_error(number).to_string();
    let suffix = format!(" (os error {number})");
    format!("{what}: {}\n", words.strip_suffix(&suffix).expect("the number of the error"))
}

/// The program ended with nothing but this on standard output and this reason on standard error.
fn failed(tally: &mut Tally, case: &str, output: Output, printed: &[u8], wanted: String) {
    let error = String::from_utf8_lossy(&output.stderr).into_owned();
    let found = (output.status.success(), output.stdout, error);
    tally.equal(case, found, (true, printed.to_vec(), wanted));
}

/// A line of the shell, in which `PROGRAM` is the job program.
fn by_shell(line: &str, output: Stdio) -> Output {
    let mut command = Command::new("sh");
    command.args(["-c", &line.replace("PROGRAM", PROGRAM)]);
    command.stdin(Stdio::null()).stdout(output).stderr(Stdio::piped());
    let child = command.spawn().expect("a shell");
    child.wait_with_output().expect("the program's output")
}

pub fn failing_reads(tally: &mut Tally, random: &mut Random) {
    for (input, number) in
        [("< .", DIRECTORY), ("<&-", NO_DESCRIPTOR), ("0> /dev/null", NO_DESCRIPTOR)]
    {
        let output = by_shell(&format!("exec PROGRAM {input}"), Stdio::piped());
        failed(tally, input, output, b"", reason("standard input", number));
    }
    for length in [0, 1, 28] {
        let file = small_job(random);
        let output = start(reset_after(&file[..length]).into()).wait_with_output();
        let output = output.expect("the program's output");
        failed(tally, "reset", output, b"", reason("standard input", RESET));
    }
}

/// An input that gives these bytes, and then an error: its other end is closed before all that was
/// sent there was read.
fn reset_after(bytes: &[u8]) -> OwnedFd {
    let (mut ours, mut theirs) = UnixStream::pair().expect("a pair of sockets");
    theirs.write_all(b"unread").expect("a write to the other end");
    ours.write_all(bytes).expect("a write to the program's end");
    theirs.into()
}

/// A pipe whose reader has ended.
fn unread() -> Stdio {
    let mut reader = Command::new("true").stdin(Stdio::piped()).spawn().expect("a reader");
    let pipe = reader.stdin.take().expect("a pipe");
    reader.wait().expect("the end of the reader");
    pipe.into()
}

pub fn failing_writes(tally: &mut Tally, _: &mut Random) {
    let whole = Plain::answer(&fs::read(STORED).expect("the stored input"));
    for (output, number) in
        [("> /dev/full", NO_SPACE), (">&-", NO_DESCRIPTOR), ("1< .", NO_DESCRIPTOR)]
    {
        let left = by_shell(&format!("exec PROGRAM < {STORED} {output}"), Stdio::piped());
        failed(tally, output, left, b"", reason("standard output", number));
    }
    let left = by_shell(&format!("trap '' PIPE; exec PROGRAM < {STORED}"), unread());
    failed(tally, "no reader", left, b"", reason("standard output", NO_READER));
    // a file of at most 512 bytes, the unit of ulimit, has room for four more
    fs::write(CUT_SHORT, [b' '; 508]).expect("a file");
    let line = format!("ulimit -f 1; trap '' XFSZ; exec PROGRAM < {STORED} >> {CUT_SHORT}");
    let left = by_shell(&line, Stdio::piped());
    failed(tally, "cut short", left, b"", reason("standard output", TOO_LARGE));
    let written = fs::read(CUT_SHORT).expect("the file");
    tally.equal("cut short", &written[508..], &whole[..4]);
}

/// `make run` on this file: whether it succeeded, what it printed and what it said.
fn make_run(job: &str, output: Stdio) -> (bool, Vec<u8>, String) {
    let mut command = Command::new("make");
    command.args(["--no-print-directory", "run", &format!("JOB={job}")]);
    for name in ["MAKEFLAGS", "MFLAGS", "MAKELEVEL"] {
        command.env_remove(name);
    }
    command.stdout(output).stderr(Stdio::piped());
    let output = command.spawn().and_then(|child| child.wait_with_output()).expect("make");
    (output.status.success(), output.stdout, String::from_utf8_lossy(&output.stderr).into_owned())
}

/// It prints the answer and succeeds, or ends with an error.
pub fn run(tally: &mut Tally, _: &mut Random) {
    let whole = Plain::answer(&fs::read(STORED).expect("the stored input"));
    let (succeeded, printed, _) = make_run(STORED, Stdio::piped());
    tally.equal("make run", (succeeded, printed), (true, whole));
    let (succeeded, printed, said) = make_run(".", Stdio::piped());
    let reasoned = said.contains(&reason("standard input", DIRECTORY));
    tally.equal("make run on a directory", (succeeded, printed, reasoned), (false, vec![], true));
    let (succeeded, printed, _) = make_run("target/tests/no-such-file", Stdio::piped());
    tally.equal("make run on no file", (succeeded, printed), (false, vec![]));
    let full = File::options().write(true).open("/dev/full").expect("/dev/full");
    let (succeeded, _, _) = make_run(STORED, full.into());
    tally.equal("make run, output full", succeeded, false);
}
