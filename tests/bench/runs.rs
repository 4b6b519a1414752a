//! Runs that give a list, measured in turn.

use crate::checks::library::Library;
use crate::checks::support::Case;
use crate::linked::Linked;
use crate::measure::Timed;
use crate::plain::refusals::work_places;

/// A run that gives a list.
pub type Run<'a> = Box<dyn FnMut() -> Vec<u32> + 'a>;

/// The call of the library by this route, with this block length or none, with buffers that are made
/// before.
pub fn by_library(route: u64, block: Option<u64>, case: &Case) -> impl FnMut() -> Vec<u32> + '_ {
    let Case { p, n, f, g } = case;
    let mut out = vec![0; *n];
    let mut work = vec![0; work_places(*n as u64, f.len()) as usize];
    move || {
        let answer = Linked::compose(route, block, *p, *n as u64, f, g, &mut out, &mut work);
        assert_eq!(answer.number, 0, "route {route}, block length {block:?}, p = {p}, n = {n}");
        out.clone()
    }
}

/// The milliseconds of each run, which must give the same. They are measured in turn, several
/// times, so that what else the machine does falls on all of them.
pub fn times<'a>(
    rounds: usize,
    mut runs: Vec<Run<'a>>,
    measure: impl Fn(&mut Run<'a>) -> Timed<Vec<u32>>,
) -> Vec<f64> {
    let mut best = vec![f64::INFINITY; runs.len()];
    for _ in 0..rounds {
        let found: Vec<_> = runs.iter_mut().map(&measure).collect();
        for (i, (time, answer)) in found.iter().enumerate() {
            assert!(*answer == found[0].1, "run {i} differs from run 0, the library");
            best[i] = time.min(best[i]);
        }
    }
    best
}
