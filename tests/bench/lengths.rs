//! Route 2 of the library at several block lengths, all on the same lists: the shortest times, and
//! their ratios to that of the length which is taken where none is given.

use crate::checks::support::Case;
use crate::measure::{ratio, shortest};
use crate::plain::routes::BLOCK_LENGTH;
use crate::runs::{by_library, times, Run};

const LENGTHS: [u64; 4] = [1, BLOCK_LENGTH, 16, 64];

/// The order of the lists.
pub const ORDER: usize = 1024;

/// How often the lengths are measured in turn.
const ROUNDS: usize = 3;

/// The table for this case.
pub fn table(case: &Case) -> String {
    let run = |length| Box::new(by_library(2, Some(length), case)) as Run;
    let found = times(ROUNDS, LENGTHS.map(run).into(), |run| shortest(run));
    let usual = LENGTHS.iter().zip(&found).find(|(&length, _)| length == BLOCK_LENGTH);
    let (_, usual) = usual.expect("the length where none is given");
    let mut table = format!(
        "p = {}, n = {}: route 2 at several block lengths, times in milliseconds\n\
         length    library  to length {BLOCK_LENGTH}\n",
        case.p, case.n,
    );
    for (length, time) in LENGTHS.iter().zip(&found) {
        table += &format!("{length:6}  {time:9.3}  {:>11}\n", ratio(Some(time / usual)));
    }
    table + "\n"
}
