//! Proved readers for two binary JSON formats, [BinaryJson](binary_json) and [Fractured JSON](fractured_json), and the
//! comparing of two [texts](text).
//!
//! Every answer is the proved library's; this package gives it Rust's types. A `Document` borrows its bytes and copies
//! nothing. Nothing panics, on any bytes, cursor or key.
//!
//! A document comes from `check`, which accepts exactly the bytes that keep the format's rules, or from `unchecked`. Every
//! question may be asked of either, with any cursor, and gives its answer or a [`Refusal`]. In a checked document no step
//! that starts at the root and fits the kinds it meets is refused; that is proved of the library, and the types still
//! say `Result`, as a cursor may come from anywhere.
//!
//! ```
//! use czubrotek::binary_json::{Document, Value};
//!
//! // {"a":true}
//! let bytes = b"\x01\x02\0\0\x21\0\0\0\x14\0\0\0\x01\0\0\0\x01\0\0\0\x40\x03\0\0a\0";
//! let Value::Object(object) = Document::check(bytes)?.value()? else { panic!("no object") };
//! for member in object {
//!     let (key, value) = member?;
//!     assert_eq!(key, b"a");
//!     assert!(matches!(value, Value::Bool(true)));
//! }
//! # Ok::<(), czubrotek::Refusal>(())
//! ```

pub mod binary_json;
mod container;
pub mod fractured_json;
mod refusal;
pub mod text;

pub use refusal::Refusal;

use std::ops::Range;

/// Lends a call the words that it needs, and gives what it wrote over them, or its refusal.
fn ask<const WORDS: usize>(call: impl FnOnce(&mut [u64]) -> u32) -> Result<[u64; WORDS], Refusal> {
    let mut out = [0; WORDS];
    match call(&mut out) {
        0 => Ok(out),
        number => Err(Refusal {
            number,
            place: out[0],
        }),
    }
}

/// A text's place and length as a range; one that would overflow lies outside every document.
fn range(place: u64, len: u64) -> Range<usize> {
    place as usize..place.saturating_add(len) as usize
}
