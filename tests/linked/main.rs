//! The calls of the proved library, linked as a static library, held against the plain second
//! implementation: number, weight, chain record, output and the whole work or text buffer of every
//! call; and the job program, run on files. The checks that the second implementation makes of
//! itself are made of them too. The seed of the random cases is the first argument.

mod agreement;
mod chain;
#[allow(dead_code)]
#[path = "../second/checks/mod.rs"]
mod checks;
mod compare;
mod linked;
mod orders;
#[allow(dead_code)]
#[path = "../second/plain/mod.rs"]
mod plain;
mod products;
mod program;
mod published;
mod refusals;
mod reverse;
mod shapes;
mod streams;
mod traps;

use checks::support::{run, Check};
use checks::{blocks, calls, cut, equality, job, primes, render, reversion, settled};
use compare::Both;
use program::Built;
use std::process::ExitCode;

const GROUPS: [(&str, Check); 72] = [
    ("settled examples", settled::examples::<Both>),
    ("edges", settled::edges::<Both>),
    ("every small shape", shapes::every_small),
    ("random shapes up to 300", shapes::random),
    ("order 4096, short outer lists", shapes::largest_order),
    ("outer lists of 4096 places, small orders", shapes::longest_outer_list),
    ("order 4096 and 4096 places, route 4", shapes::largest_of_both),
    ("order 4096 and 4096 places, several block lengths", shapes::largest_in_blocks),
    ("primes above 2^31", shapes::large_primes),
    ("primes above 2^31, largest coefficients", shapes::largest_coefficients),
    ("primes above 2^31, largest coefficients, large orders", shapes::largest_coefficients_closed),
    ("orders around powers of 2 up to 257, short and long outer lists", orders::small),
    ("orders around powers of 2 up to 1025, short and long outer lists", orders::large),
    ("orders where route 4 halves its parts", orders::halved),
    ("four routes alike, 20000 draws up to 200", agreement::four_routes),
    ("products: every order up to 300", products::every_order),
    ("products: around each size where the method changes", products::around_changes),
    ("products: the largest orders", products::largest_orders),
    ("trap: f cut to n terms", traps::outer_cut),
    ("trap: order rounded down", traps::order_rounded_down),
    ("trap: d fixed", traps::window_fixed),
    ("trap: Lagrange's formula", traps::lagrange),
    ("trap: Lagrange's formula, reverse", checks::traps::lagrange::<Both>),
    ("trap: constant term counted in v", traps::constant_term_counted),
    ("refusals and buffers", calls::refusals_and_buffers::<Both>),
    ("precedence of refusals", calls::precedence::<Both>),
    ("block length: every length by every route", blocks::every_length::<Both>),
    ("block length: beside other reasons", blocks::beside_other_reasons::<Both>),
    ("block length: every count of outer coefficients", blocks::every_count::<Both>),
    ("block length: calls without one", blocks::without_length::<Both>),
    ("edges: compose", refusals::compose),
    ("edges: reverse", refusals::reverse),
    ("edges: open", refusals::open),
    ("edges: cycle", refusals::cycle),
    ("reverse: every short series", reverse::exhaustive),
    ("reverse: both sides", reversion::both_sides::<Both>),
    ("reverse: search through all h", reversion::exhaustive::<Both>),
    ("reverse: every order", reverse::orders),
    ("reverse: random series up to 300", reverse::random_series),
    ("reverse: order 4096", reverse::largest_order),
    ("reverse: order 4096 and 4096 places", reverse::largest_of_both),
    ("reverse: published toy example", published::toy_example),
    ("reverse: published binomial case", published::binomial_case),
    ("chain: composition of all cycles", checks::chain::composition::<Both>),
    ("chain: changing block lengths", checks::chain::changing_lengths::<Both>),
    ("chain: 64 different cycles", checks::chain::different_cycles::<Both>),
    ("chain: larger orders", chain::larger_orders),
    ("chain: order 4096", chain::largest_order),
    ("chain: cut at every cycle", cut::every_split::<Both>),
    ("chain: cycles undone", cut::undone::<Both>),
    ("equality: random pairs", equality::random_pairs::<Both>),
    ("equality: random block lengths", equality::random_lengths::<Both>),
    ("equality: exhaustive pairs", equality::exhaustive_pairs::<Both>),
    ("equality: exhaustive block lengths", equality::exhaustive_lengths::<Both>),
    ("table", primes::table::<Both>),
    ("edges of the table and of rendering", settled::other_edges::<Both>),
    ("rendering", render::render::<Both>),
    ("rendering: powers of ten", render::powers_of_ten::<Both>),
    ("rendering: the longest text", render::longest::<Both>),
    ("program: whole case", settled::whole_case::<Built>),
    ("program: job files", job::job::<Built>),
    ("program: primes above 2^31", job::large_primes::<Built>),
    ("program: block length 4", job::block_length::<Built>),
    ("program: every beginning of a file", job::beginnings::<Built>),
    ("program: overlapping lists", job::overlaps::<Built>),
    ("program: offsets far past the file", job::far_offsets::<Built>),
    ("program: damaged files, random bytes", program::damaged),
    ("program: long files", program::long_files),
    ("program: files in pieces", streams::pieces),
    ("program: reads that fail", streams::failing_reads),
    ("program: writes that fail", streams::failing_writes),
    ("program: make run", streams::run),
];

fn main() -> ExitCode {
    run(&GROUPS)
}
