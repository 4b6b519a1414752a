//! Holds the definitions against the plain second implementation. It writes crates of laws, each an equation between a definition at
//! seeded arguments and what the second implementation answers there, or a promise of a call that is made of such equations; the prover
//! computes both sides.
//!
//! Usage: definitions DEFINITIONS CRATES [SEED], with the folder of the definitions and the folder to write the crates to. It prints how
//! many laws each of them has.

mod entries;
mod files;
mod limits;
#[allow(dead_code)]
#[path = "../second/plain/mod.rs"]
mod plain;
mod promises;
mod rows;
mod steps;
mod written;

use plain::random::Random;
use std::path::Path;
use written::Law;

/// What the laws unfold besides the definitions: counts of binary digits; where the theorems of `primes` are used, the table written out.
const COUNTS: &[&str] = &["lib.Count.ones", "lib.Count.ones_in", "lib.Count.count_leading_zeros"];
const WRITTEN_OUT: &str = "Rattle.primes.specs.Table.table";

fn computed(equations: Vec<String>) -> Vec<Law> {
    equations.into_iter().map(Law::computed).collect()
}

fn main() {
    let words: Vec<String> = std::env::args().collect();
    let (definitions, folder) = (&words[1], Path::new(&words[2]));
    let seed = words.get(3).map_or(1, |word| word.parse().expect("the seed is a number"));
    let mut random = Random::new(seed);
    let with_table = [COUNTS, &[WRITTEN_OUT]].concat();
    let crates = [
        ("rows", COUNTS, computed(rows::all(&mut random))),
        ("steps", COUNTS, computed(steps::all(&mut random))),
        ("files", COUNTS, computed(files::all(&mut random))),
        ("promises", COUNTS, promises::all(&mut random)),
        ("limits", COUNTS, limits::all(&mut random)),
        ("entries", &with_table, entries::all(&mut random)),
    ];
    for (name, besides, laws) in crates {
        written::write(&folder.join(name), definitions, besides, &laws)
            .expect("the crate is written");
        println!("{name}: {} laws of what the second implementation answers", laws.len());
    }
}
