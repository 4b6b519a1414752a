//! Each route of the proved library, the opening of a chain and reversion, beside the
//! straightforward code of the second implementation and beside FLINT, all on the same lists in one
//! run, for a large prime and for two small ones. The routes of the second implementation make the
//! same products with a remainder after each term; reversion there goes coefficient by coefficient.
//! FLINT has one composition, which stands beside each route, and asks for an inner series without
//! constant term, so all are given one. At a prime of the table an opening is little more than a look
//! at it; a prime outside, of the same size, is opened too, which is trial division. Printed are the
//! shortest times and their ratios; below 1 the library is the quicker one. After each prime stand
//! route 4 and reversion the other way round, FLINT's times over the library's. Then comes route 2
//! at several block lengths, at the first prime. A picture of the times at that prime goes to the file
//! that is named.

#[allow(dead_code)]
#[path = "../second/checks/mod.rs"]
mod checks;
#[allow(dead_code)]
mod flint;
mod lengths;
#[path = "../linked/linked.rs"]
mod linked;
mod measure;
mod picture;
#[allow(dead_code)]
#[path = "../second/plain/mod.rs"]
mod plain;
mod runs;
mod summary;

use checks::library::{Library, Plain};
use checks::support::Case;
use linked::Linked;
use measure::{measured, Beside, Row, ABORTS, NONE};
use plain::primes::TABLE_LENGTH;
use plain::random::Random;
use plain::reversion;
use plain::routes::{self, BLOCK_LENGTH};

const MODULI: [u64; 3] = [2_147_483_647, 2, 7];
const ORDERS: [usize; 4] = [64, 256, 1024, 4096];
const ROUTES: [&str; 4] = ["Horner", "ranged", "Bernstein", "Kinoshita and Li"];
const REVERSION: &str = "reversion";

/// The largest prime below 2^31 that the table doesn't hold, and the name of its row.
const OUTSIDE: u64 = 2_147_483_237;
const OPENING_OUTSIDE: &str = "opening 2147483237";

/// The last order at which the second implementation makes n products of n places, or reverses: four
/// times as many places take 64 times as long.
const SLOW: usize = 1024;

/// Below this, a list of non-zero coefficients would hold few different ones.
const SMALL: u64 = 100;

/// The lists of a table's rows at one order: n coefficients each, the last of them not zero, and g
/// with a reverse. For a small p the others are any, else none is zero.
fn lists(random: &mut Random, p: u64, n: usize) -> Case {
    let mut list = || -> Vec<u32> {
        let least = u64::from(p >= SMALL);
        let mut list: Vec<u32> = (0..n).map(|_| (least + random.below(p - least)) as u32).collect();
        list[n - 1] = random.non_zero(p);
        list
    };
    let (f, mut g) = (list(), list());
    g[0] = 0;
    g[1] = random.non_zero(p);
    Case { p, n, f, g }
}

fn composition(route: u64, case: &Case) -> Row {
    let Case { p, n, f, g } = case;
    // where p is below n, route 3 makes few products of n places
    let quick = *n <= SLOW || route == 4 || route == 3 && *p < *n as u64;
    measured(
        ROUTES[route as usize - 1],
        *n,
        |out, work| Linked::compose(route, None, *p, *n as u64, f, g, out, work),
        quick.then_some(|| routes::by_number(route, *p, f, g, *n, BLOCK_LENGTH)),
        || flint::compose(*p as u32, f, g, *n).ok_or(NONE),
    )
}

fn opening(call: &'static str, p: u64, n: usize) -> Row {
    let second = || {
        let mut out = vec![0; n];
        let (_, answer) = Plain::open(p, n as u64, &mut out);
        (out, answer.weight)
    };
    let library = |out: &mut [u32], _: &mut [u32]| Linked::open(p, n as u64, out).1;
    measured(call, n, library, Some(second), || Err(NONE))
}

/// FLINT's reverse, which divides by every number below n, and ends the program where p is one of
/// them.
fn reverse_by_flint(p: u64, g: &[u32], n: usize) -> Beside {
    if p < n as u64 {
        return Err(ABORTS);
    }
    flint::reverse(p as u32, g, n).ok_or(NONE)
}

fn reversion(case: &Case) -> Row {
    let Case { p, n, g, .. } = case;
    measured(
        REVERSION,
        *n,
        |out, work| Linked::reverse(*p, *n as u64, g, out, work),
        (*n <= SLOW).then_some(|| (reversion::reverse(*p, g, *n), 0)),
        || reverse_by_flint(*p, g, *n),
    )
}

/// The rows of a prime at one order; each is handed on as it is measured.
fn rows_at(case: &Case, mut done: impl FnMut(Row)) {
    for route in 1..=4 {
        done(composition(route, case));
    }
    done(opening("opening", case.p, case.n));
    if case.p == MODULI[0] {
        done(opening(OPENING_OUTSIDE, OUTSIDE, case.n));
    }
    done(reversion(case));
}

/// The table of a prime, and what it comes to.
fn measured_at(random: &mut Random, p: u64) -> Vec<Row> {
    println!("p = {p}: outer and inner lists of n coefficients, times in milliseconds");
    println!("{}", Row::HEAD);
    let mut rows = Vec::new();
    for n in ORDERS {
        rows_at(&lists(random, p, n), |row| {
            println!("{}", row.line());
            rows.push(row);
        });
    }
    print!("{}", summary::of(p, &rows));
    println!();
    rows
}

fn main() {
    let outside =
        (0..TABLE_LENGTH as u64).all(|index| u64::from(Linked::table(index).1) != OUTSIDE);
    assert!(outside, "the table holds {OUTSIDE}");
    let mut random = Random::new(1);
    let tables = MODULI.map(|p| measured_at(&mut random, p));
    print!("{}", lengths::table(&lists(&mut random, MODULI[0], lengths::ORDER)));
    print!("{}", summary::NOTES);
    if tables[0].iter().all(|row| row.flint.is_err()) {
        println!("FLINT is not installed: 'make flint' installs it.");
    }
    if let Some(file) = std::env::args().nth(1) {
        let drawn = picture::drawn(MODULI[0], &tables[0]);
        std::fs::write(&file, drawn).expect("the picture can be written");
        println!("picture, p = {}: {file}", MODULI[0]);
    }
}
