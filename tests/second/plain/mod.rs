//! A plain implementation of the library, written from its statement alone and independent of the
//! proved crates. Slow and direct on purpose: comparisons hold the proved library against it.
//!
//! Conventions of every module: p is the modulus and n the order; a list holds the coefficient of
//! power 0 first, and missing coefficients are zero; f is the outer list, m its count, g the inner.
//!
//! - `counts`        a quotient of counts, rounded up
//! - `field`         arithmetic modulo p
//! - `products`      products that give back the places they were cut to; the quotient
//! - `substitution`  f(g) modulo x^n by the definition
//! - `routes`        the four routes, carried out step by step
//! - `weights`       the rule of each route's weight
//! - `taylor`        f in powers of (z - c), and the rule for equal answers
//! - `reversion`     the reverse series, coefficient by coefficient
//! - `primes`        primality and the table of sixteen
//! - `refusals`      the number that each call returns
//! - `calls`         compose, reverse and the table, with the buffers they are lent
//! - `chain`         chains of cycles
//! - `render`        the text of an answer, and rendering into a lent buffer
//! - `job`           the job file
//! - `random`        a seeded generator

pub mod calls;
pub mod chain;
pub mod counts;
pub mod field;
pub mod job;
pub mod primes;
pub mod products;
pub mod random;
pub mod refusals;
pub mod render;
pub mod reversion;
pub mod routes;
pub mod substitution;
pub mod taylor;
pub mod weights;
