//! The self-check of the plain implementation: it is held against the settled values, against the
//! definitions and against exhaustive search. The seed of the random cases is the first argument.
//! Built by `rustc -O --edition 2021 main.rs`.

mod checks;
mod plain;

use checks::library::Plain;
use checks::support::{run, Check};
use checks::{blocks, calls, chain, cut, equality, job, primes, render, reversion, routes};
use checks::{settled, traps, wrong};
use std::process::ExitCode;

const GROUPS: [(&str, Check); 45] = [
    ("settled examples", settled::examples::<Plain>),
    ("whole case", settled::whole_case::<Plain>),
    ("edges", settled::edges::<Plain>),
    ("edges of the table and of rendering", settled::other_edges::<Plain>),
    ("routes: values and weights", routes::values_and_weights),
    ("routes: block lengths", routes::block_lengths),
    ("routes: larger cases", routes::larger_cases),
    ("equality: powers of (z - c)", equality::taylor),
    ("equality: random pairs", equality::random_pairs::<Plain>),
    ("equality: random block lengths", equality::random_lengths::<Plain>),
    ("equality: exhaustive pairs", equality::exhaustive_pairs::<Plain>),
    ("equality: exhaustive block lengths", equality::exhaustive_lengths::<Plain>),
    ("reversion: both sides", reversion::both_sides::<Plain>),
    ("reversion: exhaustive", reversion::exhaustive::<Plain>),
    ("trap: Lagrange's formula", traps::lagrange::<Plain>),
    ("trap: f cut to n terms", traps::outer_cut),
    ("trap: order rounded down", traps::order_rounded_down),
    ("trap: d fixed", traps::window_fixed),
    ("trap: constant term counted in v", traps::constant_term_counted),
    ("refusals and buffers", calls::refusals_and_buffers::<Plain>),
    ("precedence of refusals", calls::precedence::<Plain>),
    ("order of the tests", calls::order_of_tests),
    ("block length: every length by every route", blocks::every_length::<Plain>),
    ("block length: beside other reasons", blocks::beside_other_reasons::<Plain>),
    ("block length: every count of outer coefficients", blocks::every_count::<Plain>),
    ("block length: calls without one", blocks::without_length::<Plain>),
    ("block length: misread", wrong::block_lengths),
    ("chain: composition of all cycles", chain::composition::<Plain>),
    ("chain: changing block lengths", chain::changing_lengths::<Plain>),
    ("chain: 64 different cycles", chain::different_cycles::<Plain>),
    ("chain: misread", wrong::chains),
    ("chain: cut at every cycle", cut::every_split::<Plain>),
    ("chain: cycles undone", cut::undone::<Plain>),
    ("chain: cut and undone, misread", wrong::cut_and_undone),
    ("primality", primes::primality),
    ("table", primes::table::<Plain>),
    ("rendering", render::render::<Plain>),
    ("rendering: powers of ten", render::powers_of_ten::<Plain>),
    ("rendering: the longest text", render::longest::<Plain>),
    ("job file", job::job::<Plain>),
    ("job file: primes above 2^31", job::large_primes::<Plain>),
    ("job file: block length 4", job::block_length::<Plain>),
    ("job file: every beginning", job::beginnings::<Plain>),
    ("job file: overlapping lists", job::overlaps::<Plain>),
    ("job file: offsets far past the file", job::far_offsets::<Plain>),
];

fn main() -> ExitCode {
    run(&GROUPS)
}
