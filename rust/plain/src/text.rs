//! The order of two texts, and in how many steps of eight bytes or one it is told.

use std::cmp::Ordering;

/// How many bytes a step compares, where so many are left in both texts.
const EIGHT: usize = 8;

/// The order of two texts as unsigned bytes, a prefix before the longer, and the number of steps: eight bytes at a step where eight are
/// left in both, else one while both have one, through the first step that differs.
pub fn compare(a: &[u8], b: &[u8]) -> (Ordering, u64) {
    let shorter = a.len().min(b.len());
    let eights = shorter / EIGHT;
    // the step, counted from 0, that a byte belongs to
    let step = |byte: usize| {
        if byte / EIGHT < eights {
            byte / EIGHT
        } else {
            eights + byte % EIGHT
        }
    };
    let differing = a.iter().zip(b).position(|(x, y)| x != y);
    let last = differing.or(shorter.checked_sub(1));
    let steps = last.map_or(0, |byte| step(byte) + 1);
    (a.cmp(b), steps as u64)
}
