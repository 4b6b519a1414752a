//! Cut products and route 2 of the proved library, beside the straightforward program and beside
//! FLINT, all on the same lists in one run. Printed are the shortest times and their ratios; below 1
//! the library is the quicker one. The argument is the largest order of route 2, 4096 if there is
//! none: there the straightforward program takes minutes.

#[allow(dead_code)]
#[path = "../second/checks/mod.rs"]
mod checks;
#[allow(dead_code)]
mod flint;
#[path = "../linked/linked.rs"]
mod linked;
#[allow(dead_code)]
mod measure;
#[allow(dead_code)]
#[path = "../second/plain/mod.rs"]
mod plain;
mod runs;
mod straightforward;

use checks::support::Case;
use measure::{ratio, shortest, Timed};
use plain::random::Random;
use runs::{by_library, times, Run};
use std::time::Instant;
use straightforward::{by_horner, by_ranged, Constant, RunTime};

const MERSENNE: u64 = 2_147_483_647;
const LARGEST: u64 = 4_294_967_291;
const SMALL: u64 = 7;
const MODULI: [u64; 3] = [MERSENNE, LARGEST, SMALL];
const PRODUCT_ORDERS: [usize; 8] = [8, 16, 32, 64, 128, 256, 1024, 4096];
const RANGED_ORDERS: [usize; 4] = [64, 256, 1024, 4096];
/// The last order at which a run of route 2 is repeated.
const REPEATED: usize = 1024;
/// How often runs are measured in turn.
const ROUNDS: usize = 3;

const ANSWERS: &str = "The answers of a row are equal.";

const PRODUCTS_HEAD: &str = "\
One product cut at n of lists of n non-zero coefficients, times in microseconds.
library: route 1, up to n = 128 with 1025 outer coefficients, which are 1024 products, above with
65, which are 64. A call also tests the modulus and the lists and clears its work, so the time of a
call with 1 outer coefficient, without product, is taken off. straightforward: the same products,
schoolbook with a remainder after each term, the modulus known at run time. FLINT: the same products
by nmod_poly_mullow. The first of the products has a constant for a factor; additions are included.
   n           p     library  straightforward       FLINT  library/straightforward  library/FLINT";

const RANGED_HEAD: &str = "\
Route 2 with outer and inner lists of n non-zero coefficients, times in milliseconds.
library: the whole call. run time, constant: the straightforward program, the modulus known at run
time or a constant to the compiler. Above n = 1024 each is run once, not repeated.
   n           p      library     run time     constant  library/run time  library/constant";

/// The lists of a row: m and n coefficients, all non-zero.
fn lists(random: &mut Random, p: u64, n: usize, m: usize) -> Case {
    let mut list = |count| (0..count).map(|_| random.non_zero(p)).collect();
    Case { p, n, f: list(m), g: list(n) }
}

/// How many products a measurement makes. At small orders the test of the modulus takes longer than
/// 64 products, so that more are made.
fn products_at(n: usize) -> usize {
    if n <= 128 {
        1024
    } else {
        64
    }
}

/// The milliseconds of route 1 by the library, by the straightforward program and, where it is
/// installed, by FLINT.
fn horner_times(case: &Case) -> Vec<f64> {
    let Case { p, n, f, g } = case;
    let (modulus, word) = (RunTime::new(*p), *p as u32);
    let mut runs: Vec<Run> =
        vec![Box::new(by_library(1, None, case)), Box::new(move || by_horner(modulus, f, g, *n))];
    if flint::horner(word, f, g, *n).is_some() {
        runs.push(Box::new(move || flint::horner(word, f, g, *n).expect("FLINT is installed")));
    }
    times(ROUNDS, runs, |run| shortest(run))
}

/// A row of cut products; gives back whether FLINT is part of it.
fn product_row(random: &mut Random, p: u64, n: usize) -> bool {
    let products = products_at(n);
    let case = lists(random, p, n, products + 1);
    let with = horner_times(&case);
    let without = horner_times(&Case { f: case.f[..1].to_vec(), ..case });
    let microseconds = |(with, without)| 1e3 * (with - without) / products as f64;
    let each: Vec<f64> = with.iter().zip(&without).map(microseconds).collect();
    let (library, second, flint) = (each[0], each[1], each.get(2));
    println!(
        "{n:4}  {p:10}  {library:10.3}  {second:15.3}  {:>10}  {:>23}  {:>13}",
        flint.map_or("-".into(), |time| format!("{time:.3}")),
        ratio(Some(library / second)),
        ratio(flint.map(|time| library / time)),
    );
    flint.is_some()
}

fn product_table(random: &mut Random) {
    println!("{PRODUCTS_HEAD}");
    let mut installed = true;
    for n in PRODUCT_ORDERS {
        for p in MODULI {
            installed &= product_row(random, p, n);
        }
    }
    println!("{ANSWERS}");
    if !installed {
        println!("FLINT is not installed: 'make flint' installs it.");
    }
}

/// Route 2 of the straightforward program, the modulus a constant to the compiler.
fn by_constant(case: &Case) -> Vec<u32> {
    let Case { p, n, f, g } = case;
    match *p {
        MERSENNE => by_ranged(Constant::<MERSENNE>, f, g, *n),
        LARGEST => by_ranged(Constant::<LARGEST>, f, g, *n),
        SMALL => by_ranged(Constant::<SMALL>, f, g, *n),
        _ => panic!("modulus {p}"),
    }
}

/// The time of one run and what it gave.
fn once(run: &mut Run) -> Timed<Vec<u32>> {
    let start = Instant::now();
    let value = run();
    (1e3 * start.elapsed().as_secs_f64(), value)
}

/// The run, which is announced where it takes long.
fn announced<'a>(what: &'a str, case: &'a Case, mut run: impl FnMut() -> Vec<u32> + 'a) -> Run<'a> {
    Box::new(move || {
        if case.n > REPEATED {
            eprintln!("now n = {}, p = {}: {what}", case.n, case.p);
        }
        run()
    })
}

fn ranged_row(random: &mut Random, p: u64, n: usize) {
    let case = &lists(random, p, n, n);
    let modulus = RunTime::new(p);
    let runs = vec![
        announced("library", case, by_library(2, None, case)),
        announced("run time", case, move || by_ranged(modulus, &case.f, &case.g, n)),
        announced("constant", case, move || by_constant(case)),
    ];
    let found =
        if n <= REPEATED { times(ROUNDS, runs, |run| shortest(run)) } else { times(1, runs, once) };
    let (library, run_time, constant) = (found[0], found[1], found[2]);
    println!(
        "{n:4}  {p:10}  {library:11.3}  {run_time:11.3}  {constant:11.3}  {:>16}  {:>16}",
        ratio(Some(library / run_time)),
        ratio(Some(library / constant)),
    );
}

fn ranged_table(random: &mut Random, largest: usize) {
    println!("{RANGED_HEAD}");
    for n in RANGED_ORDERS.into_iter().filter(|&n| n <= largest) {
        for p in MODULI {
            ranged_row(random, p, n);
        }
    }
    println!("{ANSWERS}");
}

fn main() {
    let argument = std::env::args().nth(1).map(|text| text.parse());
    let largest = argument.unwrap_or(Ok(4096)).expect("the argument is an order");
    let mut random = Random::new(1);
    product_table(&mut random);
    println!();
    ranged_table(&mut random, largest);
}
