//! The tests of the package, in one program: examples, single questions, reports, occurrence, guarantee, availability.

mod availability;
mod bench;
mod examples;
mod guarantee;
mod occurrence;
mod questions;
mod reports;
