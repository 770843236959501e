//! Rows of the lookups in a BinaryJson object.

use crate::cases::{Case, Question};
use crate::checks::binary_document;
use crate::shapes::{digits, key, object};
use crate::tables::{Row, row};

/// Sixteen keys of an object, or sixteen that it lacks, looked up in turn.
pub fn lookups(question: Question) -> Vec<Row> {
    // members, and the length of their keys' prefix
    let objects = [
        (4, 0),
        (64, 0),
        (4096, 0),
        (4096, 7),
        (4096, 24),
        (64, 24),
        (1600, 24),
        (100_000, 0),
        (100_000, 24),
    ];
    let mut rows = vec![];
    for (members, prefix) in objects {
        for (what, end) in [("present", ""), ("absent", "!")] {
            let shared = match prefix {
                0 => String::new(),
                _ => format!(", prefix of {prefix}"),
            };
            rows.push(row(format!("{members}{shared}, {what}"), move || {
                let digits = digits(members);
                // the sixteenths alone are what halving meets first; with i more, keys are found early and late
                let key = |i| key((i * members / 16 + i) % members, digits, prefix);
                let keys = (0..16).map(|i| [&key(i), end.as_bytes()].concat());
                let case = Case {
                    question,
                    bytes: binary_document(&object(members, digits, prefix)),
                    beside: keys.collect(),
                    places: vec![],
                };
                (case, 16)
            }));
        }
    }
    rows
}
