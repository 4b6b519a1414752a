//! A call of the library, measured beside the same computation of the second implementation and of
//! FLINT, which must give the same answer.

use crate::plain::calls::Answer;
use crate::plain::refusals::work_places;
use std::time::{Duration, Instant};

/// A run is repeated once at least, and until all runs took this long.
const LONG_ENOUGH: Duration = Duration::from_millis(300);

/// It is repeated until all took four times as long as the first, too, unless that is more than this.
const LONG: Duration = Duration::from_secs(2);

/// A run that takes longer than this is not repeated.
const TOO_LONG: Duration = Duration::from_secs(3);

/// Shorter runs than this are measured so many together that they take as long, since reading the
/// clock takes time too.
const BATCH: Duration = Duration::from_micros(100);

/// The library and FLINT are measured in turn, so that what else the machine does falls on both: so
/// many times, or fewer if they took this long.
const ROUNDS: usize = 3;
const LONG_ROUNDS: Duration = Duration::from_secs(3);

/// The words that stand for a time which there is not.
pub const NONE: &str = "-";
pub const ABORTS: &str = "aborts";

/// The times of a call at an order, in milliseconds, or the word that stands for FLINT's; None is
/// not measured.
pub struct Row {
    pub n: usize,
    pub call: &'static str,
    pub library: f64,
    pub second: Option<f64>,
    pub flint: Result<f64, &'static str>,
}

impl Row {
    pub const HEAD: &'static str =
        "   n  call                 library  straightforward      FLINT  \
         library/straightforward  library/FLINT";

    pub fn to_second(&self) -> Option<f64> {
        Some(self.library / self.second?)
    }

    pub fn to_flint(&self) -> Result<f64, &'static str> {
        Ok(self.library / self.flint?)
    }

    pub fn line(&self) -> String {
        let time = |value: f64| format!("{value:.*}", if value < 0.01 { 6 } else { 3 });
        format!(
            "{:4}  {:18} {:>9}  {:>15}  {:>9}  {:>23}  {:>13}",
            self.n,
            self.call,
            time(self.library),
            self.second.map_or(NONE.into(), time),
            self.flint.map_or_else(String::from, time),
            ratio(self.to_second()),
            ratio(self.to_flint().ok()),
        )
    }
}

/// A ratio with three figures.
pub fn ratio(value: Option<f64>) -> String {
    match value {
        None => NONE.into(),
        Some(value) if value >= 99.95 => format!("{value:.0}"),
        Some(value) if value >= 9.995 => format!("{value:.1}"),
        Some(value) if value >= 0.9995 => format!("{value:.2}"),
        Some(value) => format!("{value:.3}"),
    }
}

/// A time in milliseconds and the answer that took it.
pub type Timed<T> = (f64, T);

/// The time of a run where so many are measured together, and what the last one gave.
fn together<T>(count: u32, run: &mut impl FnMut() -> T) -> Timed<T> {
    let start = Instant::now();
    (1..count).for_each(|_| drop(run()));
    let value = run();
    (1e3 * start.elapsed().as_secs_f64() / f64::from(count), value)
}

/// The shortest time of a run, which is made once where it takes long, and what the last run gave.
pub fn shortest<T>(mut run: impl FnMut() -> T) -> Timed<T> {
    let begin = Instant::now();
    let first = together(1, &mut run);
    let taken = begin.elapsed();
    if taken >= TOO_LONG {
        return first;
    }
    let enough = LONG_ENOUGH.max(LONG.min(4 * taken));
    let (mut best, _) = first;
    let count = 1 + (BATCH.as_nanos() / taken.as_nanos().max(1)) as u32;
    loop {
        let (time, value) = together(count, &mut run);
        best = best.min(time);
        if begin.elapsed() >= enough {
            return (best, value);
        }
    }
}

/// What FLINT gives, or the word for its absence.
pub type Beside = Result<Vec<u32>, &'static str>;

/// The time of FLINT, which must give this.
fn by_flint(run: &impl Fn() -> Beside, wanted: &[u32]) -> Result<f64, &'static str> {
    run()?;
    let (time, answer) = shortest(run);
    assert!(answer? == wanted, "FLINT differs");
    Ok(time)
}

/// A call of the library at order n, with lists of n coefficients, beside FLINT and beside the
/// second implementation, which gives its weight too and is left out where it is None.
pub fn measured(
    call: &'static str,
    n: usize,
    compute: impl Fn(&mut [u32], &mut [u32]) -> Answer,
    second: Option<impl Fn() -> (Vec<u32>, u64)>,
    flint: impl Fn() -> Beside,
) -> Row {
    let mut out = vec![0; n];
    let mut work = vec![0; work_places(n as u64, n) as usize];
    let mut row = Row { n, call, library: f64::INFINITY, second: None, flint: Err(NONE) };
    let (begin, mut rounds) = (Instant::now(), 0);
    let answer = loop {
        let (time, answer) = shortest(|| compute(&mut out, &mut work));
        assert_eq!(answer.number, 0, "{call}, n = {n}");
        row.library = time.min(row.library);
        let best = row.flint.unwrap_or(f64::INFINITY);
        row.flint = by_flint(&flint, &out).map(|time| time.min(best));
        rounds += 1;
        if rounds == ROUNDS || begin.elapsed() >= LONG_ROUNDS {
            break answer;
        }
    };
    row.second = second.map(|second| {
        let (time, (value, weight)) = shortest(second);
        assert!(out == value && answer.weight == weight, "{call}, n = {n}: the second differs");
        time
    });
    row
}
