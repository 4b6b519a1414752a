//! Libraries that misread the block length, what a cycle does or a reverse, each in one way. The checks must find
//! fault with every one of them, and with nothing in the second implementation itself.

use super::blocks::{beside_other_reasons, every_length};
use super::chain::{composition, different_cycles};
use super::cut::{every_split, undone};
use super::library::{Library, Plain};
use super::support::{Check, Tally};
use crate::plain::calls::Answer;
use crate::plain::chain::Chain;
use crate::plain::primes::is_prime;
use crate::plain::products::places;
use crate::plain::random::Random;
use crate::plain::routes::BLOCK_LENGTH;
use crate::plain::substitution::substitution;
use crate::plain::weights;

const FIFTEEN_BY_ANY_ROUTE: usize = 0;
const FIFTEEN_AFTER_TWO: usize = 1;
const LONGEST_REFUSED: usize = 2;
const LONGER_TAKEN: usize = 3;
const FOUR_FOR_ANY_LENGTH: usize = 4;
const LAST_DIGIT_IGNORED: usize = 5;
const LENGTH_OF_32_BITS: usize = 6;
const NONE: usize = 7;
const LATEST_OUTERMOST: usize = 8;
const WEIGHT_OF_THE_LIST: usize = 9;
const FIRST_THEN_COUNTED: usize = 10;
const LIST_CUT_TO_TWO_PLACES: usize = 11;
const OWN_REVERSE: usize = 12;

/// The second implementation with a misreading.
struct Wrong<const MISREADING: usize>;

impl<const MISREADING: usize> Wrong<MISREADING> {
    /// The length that is taken, or the number that comes back.
    fn read(route: u64, block: Option<u64>, p: u64) -> Result<Option<u64>, u32> {
        let length = match block {
            Some(length) => length,
            None => return Ok(None),
        };
        let fit = (1..=64).contains(&length);
        match MISREADING {
            FIFTEEN_BY_ANY_ROUTE if !fit && (1..=4).contains(&route) => Err(15),
            FIFTEEN_AFTER_TWO if !fit && route == 2 && !is_prime(p) => Err(2),
            LONGEST_REFUSED if length == 64 && route == 2 => Err(15),
            LONGER_TAKEN if length == 65 => Ok(Some(64)),
            FOUR_FOR_ANY_LENGTH if fit => Ok(Some(4)),
            LAST_DIGIT_IGNORED if fit && length > 1 => Ok(Some(length - length % 2)),
            LENGTH_OF_32_BITS => Ok(Some(length % (1 << 32))),
            _ => Ok(block),
        }
    }
}

impl<const MISREADING: usize> Wrong<MISREADING> {
    /// What a cycle leaves and answers.
    fn cycled(
        chain: Chain,
        route: u64,
        block: Option<u64>,
        list: &[u32],
        running: &mut [u32],
        work: &mut [u32],
    ) -> (Chain, Answer) {
        let before = running.to_vec();
        let (next, mut answer) = Plain::cycle(chain, route, block, list, running, work);
        if answer.number != 0 {
            return (next, answer);
        }
        let (p, n) = (chain.modulus, before.len());
        match MISREADING {
            LATEST_OUTERMOST => running.copy_from_slice(&substitution(p, list, &before, n)),
            FIRST_THEN_COUNTED if chain.done > 0 => running.copy_from_slice(&before),
            LIST_CUT_TO_TWO_PLACES if list.len() > 2 => {
                running.copy_from_slice(&substitution(p, &before, &list[..2], n));
            }
            WEIGHT_OF_THE_LIST => {
                let length = block.unwrap_or(BLOCK_LENGTH);
                answer.weight =
                    weights::by_number(route, p, list.len() as u64, chain.order, length);
            }
            _ => (),
        }
        (next, answer)
    }
}

impl<const MISREADING: usize> Library for Wrong<MISREADING> {
    fn compose(
        route: u64,
        block: Option<u64>,
        p: u64,
        n: u64,
        f: &[u32],
        g: &[u32],
        out: &mut [u32],
        work: &mut [u32],
    ) -> Answer {
        match Self::read(route, block, p) {
            Ok(block) => Plain::compose(route, block, p, n, f, g, out, work),
            Err(number) => Answer { number, weight: 0 },
        }
    }

    fn reverse(p: u64, n: u64, g: &[u32], out: &mut [u32], work: &mut [u32]) -> Answer {
        let answer = Plain::reverse(p, n, g, out, work);
        if answer.number == 0 && MISREADING == OWN_REVERSE {
            out.copy_from_slice(&places(g, out.len()));
        }
        answer
    }

    fn open(p: u64, n: u64, running: &mut [u32]) -> (Chain, Answer) {
        Plain::open(p, n, running)
    }

    fn cycle(
        chain: Chain,
        route: u64,
        block: Option<u64>,
        list: &[u32],
        running: &mut [u32],
        work: &mut [u32],
    ) -> (Chain, Answer) {
        match Self::read(route, block, chain.modulus) {
            Ok(block) => Self::cycled(chain, route, block, list, running, work),
            Err(number) => (chain, Answer { number, weight: 0 }),
        }
    }

    fn table(index: u64) -> (u32, u32) {
        Plain::table(index)
    }

    fn render(number: u32, n: u64, weight: u64, list: &[u32], text: &mut [u8]) -> (u32, u64) {
        Plain::render(number, n, weight, list, text)
    }
}

/// The checks of the block length, of one of these libraries.
fn of_blocks<const MISREADING: usize>(tally: &mut Tally, random: &mut Random) {
    every_length::<Wrong<MISREADING>>(tally, random);
    beside_other_reasons::<Wrong<MISREADING>>(tally, random);
}

/// Each check finds fault with its library.
fn faulted(tally: &mut Tally, random: &mut Random, wrong: &[(&str, Check)]) {
    for (misreading, check) in wrong {
        let mut found = Tally { quiet: true, ..Tally::default() };
        check(&mut found, random);
        tally.equal(misreading, found.failed > 0, true);
    }
}

pub fn block_lengths(tally: &mut Tally, random: &mut Random) {
    let wrong: [(&str, Check); 7] = [
        ("15 by any route", of_blocks::<FIFTEEN_BY_ANY_ROUTE>),
        ("15 after 2", of_blocks::<FIFTEEN_AFTER_TWO>),
        ("64 refused", of_blocks::<LONGEST_REFUSED>),
        ("65 taken", of_blocks::<LONGER_TAKEN>),
        ("4 in place of the length", of_blocks::<FOUR_FOR_ANY_LENGTH>),
        ("last binary digit ignored", of_blocks::<LAST_DIGIT_IGNORED>),
        ("length cut to 32 bits", of_blocks::<LENGTH_OF_32_BITS>),
    ];
    faulted(tally, random, &wrong);
    of_blocks::<NONE>(tally, random);
}

pub fn chains(tally: &mut Tally, random: &mut Random) {
    let wrong: [(&str, Check); 8] = [
        ("latest cycle outermost", composition::<Wrong<LATEST_OUTERMOST>>),
        ("weight of the cycle list", composition::<Wrong<WEIGHT_OF_THE_LIST>>),
        ("first cycle, then only counted", composition::<Wrong<FIRST_THEN_COUNTED>>),
        ("list cut to two places", composition::<Wrong<LIST_CUT_TO_TWO_PLACES>>),
        ("latest of 64 outermost", different_cycles::<Wrong<LATEST_OUTERMOST>>),
        ("weight of each of 64 lists", different_cycles::<Wrong<WEIGHT_OF_THE_LIST>>),
        ("first of 64 cycles, then only counted", different_cycles::<Wrong<FIRST_THEN_COUNTED>>),
        ("64 lists cut to two places", different_cycles::<Wrong<LIST_CUT_TO_TWO_PLACES>>),
    ];
    faulted(tally, random, &wrong);
}

pub fn cut_and_undone(tally: &mut Tally, random: &mut Random) {
    let wrong: [(&str, Check); 4] = [
        ("latest cycle outermost, cut", every_split::<Wrong<LATEST_OUTERMOST>>),
        ("first cycle, then only counted, cut", every_split::<Wrong<FIRST_THEN_COUNTED>>),
        ("first cycle, then only counted, undone", undone::<Wrong<FIRST_THEN_COUNTED>>),
        ("a series its own reverse", undone::<Wrong<OWN_REVERSE>>),
    ];
    faulted(tally, random, &wrong);
}
