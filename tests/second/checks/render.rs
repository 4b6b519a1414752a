//! Rendering against the language's own formatting.

use super::broken::{first, other_length, some, UNFIT_ORDERS};
use super::library::Library;
use super::support::Tally;
use crate::plain::random::Random;
use crate::plain::refusals::RENDER;
use crate::plain::render;

const CALLS: usize = 2000;

/// The printed answer of an accepted job.
pub fn accepted_text(n: u64, weight: u64, list: &[u32]) -> Vec<u8> {
    let coefficients: Vec<String> = list.iter().map(u32::to_string).collect();
    format!("ok {n} {weight}\n{}\n", coefficients.join(" ")).into_bytes()
}

/// The printed answer of a refusal.
pub fn refused_text(number: u32) -> Vec<u8> {
    format!("no {number}\n").into_bytes()
}

/// A number of any size, from few to many digits.
fn number_of_any_size(random: &mut Random) -> u64 {
    let shorter = random.next() >> random.below(64);
    random.pick(&[0, 1, 9, 10, u64::MAX, shorter])
}

pub fn render<L: Library>(tally: &mut Tally, random: &mut Random) {
    for _ in 0..CALLS {
        let number = number_of_any_size(random);
        tally.equal(number, render::digits(number), number.to_string().into_bytes());
        let broken = some(random, RENDER);
        accepted_answer::<L>(tally, random, &broken);
        let short = random.once_in(3);
        refusal::<L>(tally, random, short);
    }
}

/// Numbers at both sides of each power of ten, as coefficient, weight and refusal number.
pub fn powers_of_ten<L: Library>(tally: &mut Tally, random: &mut Random) {
    for exponent in 0..20 {
        let power = 10u64.pow(exponent);
        for weight in [power - 1, power, power + 1] {
            let list = [weight as u32, 0, weight as u32];
            let text = accepted_text(3, weight, &list);
            let buffer = text_buffer(random, text.len(), false);
            rendered::<L>(tally, (0, 3, weight, &list), &buffer, Ok(text));
            let number = (weight as u32).max(1);
            let text = refused_text(number);
            let buffer = text_buffer(random, text.len(), false);
            rendered::<L>(tally, (number, 3, weight, &list), &buffer, Ok(text));
        }
    }
}

/// The longest text, in a buffer of just its length and in one that is a byte shorter.
pub fn longest<L: Library>(tally: &mut Tally, random: &mut Random) {
    let list = vec![u32::MAX; 4096];
    let text = accepted_text(4096, u64::MAX, &list);
    let (whole, short) = (dirty(random, text.len()), dirty(random, text.len() - 1));
    rendered::<L>(tally, (0, 4096, u64::MAX, &list), &whole, Ok(text));
    rendered::<L>(tally, (0, 4096, u64::MAX, &list), &short, Err(7));
}

fn accepted_answer<L: Library>(tally: &mut Tally, random: &mut Random, broken: &[u32]) {
    let places = random.count(1, 8);
    let mut n = places as u64;
    let weight = number_of_any_size(random);
    let mut list: Vec<u32> = (0..places).map(|_| number_of_any_size(random) as u32).collect();
    let text = accepted_text(n, weight, &list);
    let buffer = text_buffer(random, text.len(), broken.contains(&7));
    for number in broken {
        match number {
            3 => n = random.pick(&UNFIT_ORDERS),
            6 => list.resize(other_length(random, places), 9),
            _ => (),
        }
    }
    let wanted = if broken.is_empty() { Ok(text) } else { Err(first(RENDER, broken)) };
    rendered::<L>(tally, (0, n, weight, &list), &buffer, wanted);
}

/// With a refusal number only 7 is met, whatever the order and the list.
fn refusal<L: Library>(tally: &mut Tally, random: &mut Random, short: bool) {
    let number = (number_of_any_size(random) as u32).max(1);
    let text = refused_text(number);
    let buffer = text_buffer(random, text.len(), short);
    let places = random.count(0, 3);
    let list = random.buffer(places);
    let wanted = if short { Err(7) } else { Ok(text) };
    rendered::<L>(tally, (number, random.pick(&[0, 1, 2, 4097]), 5, &list), &buffer, wanted);
}

fn text_buffer(random: &mut Random, needed: usize, short: bool) -> Vec<u8> {
    let length = if short { random.pick(&[0, needed - 1]) } else { needed + random.count(0, 3) };
    dirty(random, length)
}

fn dirty(random: &mut Random, length: usize) -> Vec<u8> {
    (0..length).map(|_| random.next() as u8).collect()
}

/// Renders into a copy of the buffer; wanted is the text, or the number of the refusal.
fn rendered<L: Library>(
    tally: &mut Tally,
    (number, n, weight, list): (u32, u64, u64, &[u32]),
    before: &[u8],
    wanted: Result<Vec<u8>, u32>,
) {
    let mut buffer = before.to_vec();
    let found = L::render(number, n, weight, list, &mut buffer);
    let left = match wanted {
        Ok(text) => {
            let count = text.len();
            ((0, count as u64), [text, before[count..].to_vec()].concat())
        }
        Err(refusal) => ((refusal, 0), before.to_vec()),
    };
    tally.equal((number, n, weight, list, before.len()), (found, buffer), left);
}
