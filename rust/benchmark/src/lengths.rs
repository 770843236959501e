//! Documents made to a length, which they come near to and do not pass.

use crate::cases::Case;
use crate::checks::{fractured_check, fractured_document};
use differential::LONGEST;
use documents::Tree;
use documents::fractured_json::ARRAY;

/// The lengths at which growth is measured, up to the longest that a document can have, and what the tables call them.
pub const LENGTHS: [(usize, &str); 3] =
    [(65_536, "64 KB"), (1_048_576, "1 MB"), (LONGEST, "16 MB")];

/// How many distinct immediate keys a document of Fractured JSON can have.
pub const MOST_KEYS: usize = 4096;

/// The document of about as many parts as fit into a length, with its tree.
pub fn filled(
    length: usize,
    tree: impl Fn(usize) -> Tree,
    document: impl Fn(&Tree) -> Vec<u8>,
) -> (Tree, Vec<u8>) {
    let length = length as f64;
    // what a part takes is told by two shorter documents
    let mut n = length as usize / 4096;
    let [once, twice] = [n, 2 * n].map(|n| document(&tree(n)).len() as f64);
    let part = (twice - once) / n as f64;
    let near = (2.0 * part).max(length / 4096.0);
    let mut spare = length - once;
    loop {
        n = n.saturating_add_signed((spare / part).floor() as isize);
        let tree = tree(n);
        let doc = document(&tree);
        spare = length - doc.len() as f64;
        if (0.0..near).contains(&spare) {
            return (tree, doc);
        }
    }
}

/// An object with as many immediate keys as there can be, whose document comes near to a length. The keys are made by their number
/// and their length, a multiple of 8.
pub fn full_room(length: usize, keys: impl Fn(usize, usize) -> Vec<Vec<u8>>) -> Case {
    let member = length / MOST_KEYS - 1;
    let key_length = (member - 4) / 8 * 8;
    // a byte or three before the key, and one before the text that fills the rest
    let rest = member - key_length - if key_length < 84 { 2 } else { 4 };
    let members = keys(MOST_KEYS, key_length)
        .into_iter()
        .map(|key| (key, Tree::Text(vec![b's'; rest])));
    fractured_check(fractured_document(&Tree::Object(members.collect())))
}

/// An array of as many values as fit that are all spelled like this.
pub fn repeated(length: usize, value: &[u8]) -> Case {
    let n = (length - 8) / value.len();
    let mut doc = b"FJ\x01".to_vec();
    ARRAY.put_length(&mut doc, n, None);
    doc.extend(value.repeat(n));
    fractured_check(doc)
}
