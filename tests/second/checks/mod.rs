//! The checks of the plain implementation, one module for each subject.

pub mod blocks;
pub mod broken;
pub mod calls;
pub mod chain;
pub mod cut;
pub mod equality;
pub mod job;
pub mod library;
pub mod primes;
pub mod render;
pub mod reversion;
pub mod routes;
pub mod settled;
pub mod support;
pub mod traps;
pub mod wrong;
