//! Texts: how two of them compare, and in how many steps.
//!
//! A text is any bytes, zeros among them, and need not be UTF-8.

use czubrotek_sys as sys;
use std::cmp::Ordering;

/// The order of two texts, and how many steps told it.
#[derive(Debug, Clone, Copy, PartialEq, Eq, Hash)]
pub struct Comparison {
    /// The order of the first text against the second, which is that of the slices.
    pub order: Ordering,
    /// The number of steps, through the first that differs.
    pub steps: u64,
}

/// Compares two texts as unsigned bytes, a prefix before the longer: eight bytes at a step where eight are left in both, else
/// one while both have one, through the first step that differs. The strings of a BinaryJson document ascend in this order.
///
/// ```
/// use czubrotek::text::{Comparison, compare};
/// use std::cmp::Ordering;
///
/// // eight bytes, and then one
/// let compared = compare(b"sensor/07/air", b"sensor/08/air");
/// assert_eq!(compared, Comparison { order: Ordering::Less, steps: 2 });
/// // two bytes, one at a step
/// assert_eq!(compare(b"air", b"ai"), Comparison { order: Ordering::Greater, steps: 2 });
/// ```
pub fn compare(a: &[u8], b: &[u8]) -> Comparison {
    let mut out = [0; 2];
    // returns 0: the library's contract leaves no refusal
    sys::text_compare(a, b, &mut out);
    let [order, steps] = out;
    let order = match order {
        0 => Ordering::Less,
        1 => Ordering::Equal,
        // 2: the library's contract leaves no other
        _ => Ordering::Greater,
    };
    Comparison { order, steps }
}
