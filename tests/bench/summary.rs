//! What the rows of a prime come to, and what their signs mean.

use crate::measure::{ratio, Row, NONE};
use crate::{ORDERS, REVERSION, ROUTES};

pub const NOTES: &str = "\
The answers of a row are equal. Times are the shortest of several runs, and of one where it takes seconds.
-       not measured: the straightforward code where it would take about a minute, and FLINT for an opening, which it lacks.
aborts  FLINT's reversion divides by every number below n, and ends the program where p is one of them; it is not called there.
opening 2147483237  the largest prime below 2^31 outside the table, so that the modulus is tested by trial division.
";

/// The row of this call at an order.
fn at<'a>(rows: &'a [Row], call: &str, n: usize) -> Option<&'a Row> {
    rows.iter().find(|row| row.call == call && row.n == n)
}

/// FLINT's time over the library's; above 1 the library is the quicker one.
fn flint_to_library(row: &Row) -> String {
    match row.to_flint() {
        Ok(value) => ratio(Some(1.0 / value)),
        Err(word) => word.into(),
    }
}

/// The ratios of a call at the orders.
fn line(rows: &[Row], call: &str) -> String {
    let cells = ORDERS.map(|n| at(rows, call, n).map_or(NONE.into(), flint_to_library));
    format!("  {call:18} {}\n", cells.map(|cell| format!("{cell:>8}")).concat())
}

/// How often as long a call takes at the last order as at the one before.
fn growth(rows: &[Row], call: &str) -> String {
    let [.., before, last] = ORDERS;
    let time = |n| at(rows, call, n).map(|row| row.library);
    let value = time(last).zip(time(before)).map(|(last, before)| last / before);
    format!("  {call}: {} times as long at n = {last} as at n = {before}\n", ratio(value))
}

/// Route 4 and reversion at a prime: FLINT over the library, and how route 4 grows.
pub fn of(p: u64, rows: &[Row]) -> String {
    let route = ROUTES[3];
    let orders = ORDERS.map(|n| format!("{n:>8}")).concat();
    let head = format!("p = {p}: FLINT/library, above 1 the library is quicker\n");
    head + &format!("  {:18} {orders}\n", "n")
        + &line(rows, route)
        + &line(rows, REVERSION)
        + &growth(rows, route)
}
