//! BinaryJson documents of one tree in every order that its containers can have.

use documents::Tree;
use documents::binary_json::{Order, document, document_in};
use std::collections::BTreeSet;

// [[[]],[]]: the first child, its child and the second child, by the places that they have
const DEPTH_FIRST: [u32; 9] = [0x401, 0x40, 0x205, 0x385, 0x20, 0x305, 0, 0, 0];
const BREADTH_FIRST: [u32; 9] = [0x401, 0x40, 0x205, 0x305, 0x20, 0x385, 0, 0, 0];
const SECOND_FIRST: [u32; 9] = [0x401, 0x40, 0x285, 0x205, 0, 0x20, 0x385, 0, 0];

fn words(doc: Vec<u8>) -> Vec<u32> {
    let (words, rest) = doc.as_chunks();
    assert!(rest.is_empty());
    words.iter().copied().map(u32::from_le_bytes).collect()
}

#[test]
fn each_order() {
    let empty = || Tree::Array(vec![]);
    let tree = Tree::Array(vec![Tree::Array(vec![empty()]), empty()]);
    let of = |order| words(document_in(&tree, &Tree::Null, order));
    assert_eq!(words(document(&tree, &Tree::Null)), DEPTH_FIRST);
    assert_eq!(of(Order::DepthFirst), DEPTH_FIRST);
    assert_eq!(of(Order::BreadthFirst), BREADTH_FIRST);
    let shuffled: BTreeSet<_> = (0..50).map(|seed| of(Order::Shuffled(seed))).collect();
    let all = [DEPTH_FIRST, BREADTH_FIRST, SECOND_FIRST].map(Vec::from);
    assert_eq!(shuffled, BTreeSet::from(all));
}
