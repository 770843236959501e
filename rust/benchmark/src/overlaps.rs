//! BinaryJson documents in which two containers overlap, refused as late as can be. A body whose words are unmarked is
//! marked, and the first that meets a marked word ends the check, so that one body at most is looked at in vain.

use crate::cases::Case;
use crate::checks::binary_document;
use crate::lengths::filled;
use crate::shapes::array;
use documents::Tree;

/// An array as long as fits, which shares its last word with an empty one that is named before it.
pub fn last_word_marked(length: usize) -> Case {
    let nulls = length / 4 - 7;
    let long = array(nulls, |_| Tree::Null);
    let mut doc = binary_document(&Tree::Array(vec![long, Tree::Array(vec![])]));
    // the root's Entries in the other order, and one element more
    doc[8..16].rotate_left(4);
    doc[16..20].copy_from_slice(&(32 * (nulls as u32 + 1)).to_le_bytes());
    Case::binary_overlap(doc)
}

/// Empty arrays, of which the last Entry names the first.
pub fn named_twice(length: usize) -> Case {
    let empty = |n| array(n, |_| Tree::Array(vec![]));
    let (tree, mut doc) = filled(length, empty, binary_document);
    let last = 4 + 4 * tree.children().count();
    doc.copy_within(8..12, last);
    Case::binary_overlap(doc)
}
