//! Reference implementation of document 01, written from that document alone.
//!
//! `table` reads bytes (refusals 1 to 9), `check` types a table (10 to 13),
//! `evaluate` runs it (14 to 19), `merge` unites two values and counts the
//! comparisons. `generate` makes seeded cases and `batch` writes and answers
//! them.

pub mod batch;
pub mod build;
pub mod cases;
pub mod check;
pub mod evaluate;
pub mod examples;
pub mod former;
pub mod generate;
pub mod kinds;
pub mod listing;
pub mod merge;
pub mod random;
pub mod rules;
pub mod stats;
pub mod table;
pub mod types;
pub mod unifier;
pub mod values;

/// A refusal of document 01's list: its number and its place.
#[derive(Clone, Copy, PartialEq, Eq, Debug)]
pub struct Refusal {
    pub number: u32,
    pub place: u32,
}

impl Refusal {
    pub fn new(number: u32, place: usize) -> Refusal {
        // Places are identifiers, given sets or nodes: at most 32 + 512.
        Refusal {
            number,
            place: place as u32,
        }
    }
}
