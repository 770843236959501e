//! The refusal and the answer that both readers share, the readers themselves as two modules, and the comparing of two texts.

#![forbid(unsafe_code)]

pub mod binary_json;
pub mod fractured_json;
pub mod text;

/// Longest document of either format, in bytes (rules 2 and 32).
const MAX_LENGTH: usize = 16_777_216;

/// How many containers may stand inside one another, the outermost being 1 (rules 12 and 41).
const MAX_DEPTH: u32 = 64;

/// A refusal: the number of the failed rule and the place it failed at.
#[derive(Debug, Clone, Copy, PartialEq, Eq)]
pub struct Refusal {
    pub number: u32,
    pub place: u64,
}

/// What a check or a question gives: its answer or one refusal.
pub type Answer<T> = Result<T, Refusal>;

impl Refusal {
    /// A refusal at a place of the document.
    fn new(number: u32, place: usize) -> Refusal {
        Refusal {
            number,
            place: place as u64,
        }
    }
}
