//! A tree as BinaryJson: header, containers in an order that is asked for, string index, texts, numbers.

use crate::Tree;
use std::collections::{BTreeSet, HashMap, VecDeque};

/// The order in which containers stand: the root first, and each after its parent.
#[derive(Clone, Copy, Debug)]
pub enum Order {
    /// All that is below a container stands before its next sibling.
    DepthFirst,
    /// All of a level stand before those of the next.
    BreadthFirst,
    /// Next is always any whose parent stands already, by this seed.
    Shuffled(u64),
}

/// Where things stand in the document.
struct Layout<'a> {
    /// The offset of the slot of each text.
    slots: HashMap<&'a [u8], usize>,
    /// The offset of each number, by its bits.
    numbers: HashMap<u64, usize>,
}

/// How many bytes the tree below a container takes, its Meta and body included.
fn size(tree: &Tree) -> usize {
    let body = match tree {
        Tree::Array(items) => 4 + 4 * items.len(),
        Tree::Object(members) => 4 + 8 * members.len(),
        _ => return 0,
    };
    body + tree.children().map(size).sum::<usize>()
}

fn gather<'a>(tree: &'a Tree, texts: &mut BTreeSet<&'a [u8]>, numbers: &mut BTreeSet<u64>) {
    match tree {
        Tree::Text(text) => {
            texts.insert(text);
        }
        Tree::Number(bits) => {
            numbers.insert(*bits);
        }
        Tree::Object(members) => texts.extend(members.iter().map(|(key, _)| &key[..])),
        _ => {}
    }
    for child in tree.children() {
        gather(child, texts, numbers);
    }
}

fn word(low: u32, high: usize) -> [u8; 4] {
    (low | (high as u32) << 5).to_le_bytes()
}

/// The Entry of a value; that of a container names no place yet.
fn entry(layout: &Layout, tree: &Tree) -> [u8; 4] {
    match tree {
        Tree::Bool(b) => word(u32::from(*b), 0),
        Tree::Null => word(2, 0),
        Tree::Text(text) => word(3, layout.slots[&text[..]]),
        Tree::Number(bits) => word(4, layout.numbers[bits]),
        Tree::Array(_) | Tree::Object(_) => word(5, 0),
    }
}

/// Containers that do not stand yet, each with the offset of the Entry that is to name it.
type Waiting<'a> = VecDeque<(usize, &'a Tree)>;

/// A container's Meta and body; its children wait behind the others.
fn put_container<'a>(
    doc: &mut Vec<u8>,
    layout: &Layout,
    tree: &'a Tree,
    waiting: &mut Waiting<'a>,
) {
    let n = tree.children().count();
    doc.extend(word(u32::from(matches!(tree, Tree::Object(_))), n));
    if let Tree::Object(members) = tree {
        for (key, _) in members {
            doc.extend((layout.slots[&key[..]] as u32).to_le_bytes());
        }
    }
    for child in tree.children() {
        if child.is_container() {
            waiting.push_back((doc.len(), child));
        }
        doc.extend(entry(layout, child));
    }
}

/// All containers, from the root on.
fn put_containers(doc: &mut Vec<u8>, layout: &Layout, root: &Tree, mut order: Order) {
    let mut waiting = Waiting::new();
    put_container(doc, layout, root, &mut waiting);
    while !waiting.is_empty() {
        if let Order::Shuffled(seed) = &mut order {
            *seed = seed.wrapping_mul(6_364_136_223_846_793_005).wrapping_add(1);
            let any = (*seed >> 33) as usize % waiting.len();
            waiting.swap(0, any);
        }
        let (entry, tree) = waiting.pop_front().expect("one waits");
        let named = word(5, doc.len());
        doc[entry..][..4].copy_from_slice(&named);
        let others = waiting.len();
        put_container(doc, layout, tree, &mut waiting);
        if let Order::DepthFirst = order {
            // its children come first
            waiting.rotate_left(others);
        }
    }
}

/// The document of a tree, depth first; `unused` texts and numbers stand beside those that it uses.
pub fn document(tree: &Tree, unused: &Tree) -> Vec<u8> {
    document_in(tree, unused, Order::DepthFirst)
}

/// The same in any order of containers.
pub fn document_in(tree: &Tree, unused: &Tree, order: Order) -> Vec<u8> {
    let (mut texts, mut numbers) = (BTreeSet::new(), BTreeSet::new());
    gather(tree, &mut texts, &mut numbers);
    gather(unused, &mut texts, &mut numbers);
    let index = 4 + if tree.is_container() { size(tree) } else { 8 };
    let first = index + 4 + 4 * texts.len();
    let end = first + texts.iter().map(|t| t.len() + 1).sum::<usize>();
    let layout = Layout {
        slots: texts
            .iter()
            .enumerate()
            .map(|(k, t)| (*t, index + 4 + 4 * k))
            .collect(),
        numbers: numbers
            .iter()
            .enumerate()
            .map(|(k, n)| (*n, end + 8 * k))
            .collect(),
    };
    let mut doc = Vec::new();
    doc.extend(word(1, index));
    if tree.is_container() {
        put_containers(&mut doc, &layout, tree, order);
    } else {
        doc.extend(word(2, 1));
        doc.extend(entry(&layout, tree));
    }
    doc.extend((texts.len() as u32).to_le_bytes());
    let mut past = first;
    for text in &texts {
        past += text.len() + 1;
        doc.extend(word(0, past));
    }
    for text in &texts {
        doc.extend(*text);
        doc.push(0);
    }
    for bits in &numbers {
        doc.extend(bits.to_le_bytes());
    }
    doc
}
