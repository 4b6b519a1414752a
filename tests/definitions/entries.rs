//! Laws of what takes too long to be computed as it is defined: the entries of the table, and the numbers around the largest prime. They
//! go by the theorems of the crate `primes`: the table is the one written out there, and 4294967291 is the largest prime up to the end.

use crate::plain::primes::{self, LARGEST_MODULUS, LARGEST_PRIME};
use crate::plain::random::Random;
use crate::plain::{calls, refusals};
use crate::promises;
use crate::rows::list;
use crate::written::Law;

const WRITTEN: &str = "Rattle.primes.proofs.Table.table-written";
const LARGEST: &str = "Rattle.primes.proofs.Largest.largest-prime";
const TAKEN: &str = "Rattle.primes.proofs.Largest.largest_taken";
const BEYOND: &str = "Rattle.primes.proofs.Largest.beyond_refused";

pub fn all(random: &mut Random) -> Vec<Law> {
    let mut laws = table();
    laws.extend(largest());
    laws.extend(at_largest(random));
    laws
}

fn law(statement: String, proof: String) -> Law {
    Law { statement, proof, shut: &["prime_table", "prime_below", "bad_modulus"] }
}

/// The table as a list, and what the call promises of each entry.
fn table() -> Vec<Law> {
    let whole = format!("prime_table ≡ {}", list(&primes::table()));
    let mut laws = vec![law(whole, String::from(WRITTEN))];
    for index in 0..primes::TABLE_LENGTH as u64 {
        let (number, prime) = calls::table(index);
        let proof = format!("record {{ refusal = refl; entry = rw {WRITTEN} }}");
        laws.push(law(format!("Table {index} {number} {prime}"), proof));
    }
    laws
}

/// The largest prime is found and taken, and the numbers after it are refused.
fn largest() -> Vec<Law> {
    let refusal = |p| format!("open_refusal {p} 1 1 ≡ {}", refusals::open(p, 1, 1));
    let found = (0..=LARGEST_MODULUS).rev().find(|&p| primes::is_prime(p)).expect("a prime");
    let below = format!("prime_below {} ≡ {found}", LARGEST_MODULUS + 1);
    let mut laws = vec![law(below, String::from(LARGEST))];
    laws.push(law(refusal(LARGEST_PRIME), format!("rw {TAKEN}")));
    for p in LARGEST_PRIME + 1..=LARGEST_MODULUS + 1 {
        laws.push(law(refusal(p), format!("rw ({BEYOND} {p} (lib.Dec.lit< tt))")));
    }
    laws
}

/// What accepted calls with the largest prime promise.
fn at_largest(random: &mut Random) -> Vec<Law> {
    let refusal = format!("refusal = rw {TAKEN}");
    let by_theorem =
        |promise: Law| law(promise.statement, promise.proof.replace("refusal = refl", &refusal));
    promises::accepted(random, LARGEST_PRIME).into_iter().map(by_theorem).collect()
}
