//! BinaryJson documents that keep the rules, but for numbers that are not finite by chance.

use crate::DEEPEST;
use crate::random::Random;
use documents::Tree;
use documents::binary_json::{Order, document_in};

/// The texts and numbers that a document is made of.
pub(crate) struct Pool {
    /// Ascending, none twice.
    pub(crate) texts: Vec<Vec<u8>>,
    pub(crate) numbers: Vec<u64>,
}

impl Pool {
    fn new(random: &mut Random) -> Self {
        let mut texts: Vec<Vec<u8>> = (0..random.below(9)).map(|_| random.text(4)).collect();
        texts.sort();
        texts.dedup();
        let numbers = (0..random.below(4)).map(|_| random.float(40)).collect();
        Pool { texts, numbers }
    }

    /// All of it, to stand in the document used or not.
    pub(crate) fn tree(&self) -> Tree {
        let texts = self.texts.iter().cloned().map(Tree::Text);
        let numbers = self.numbers.iter().copied().map(Tree::Number);
        Tree::Array(texts.chain(numbers).collect())
    }

    pub(crate) fn value(&self, random: &mut Random, levels: usize) -> Tree {
        match random.below(9) {
            0 | 1 if !self.texts.is_empty() => {
                Tree::Text(self.texts[random.below(self.texts.len())].clone())
            }
            2 | 3 if !self.numbers.is_empty() => {
                Tree::Number(self.numbers[random.below(self.numbers.len())])
            }
            4..=6 if levels > 0 => self.container(random, levels),
            7 => Tree::Null,
            _ => Tree::Bool(random.once_in(2)),
        }
    }

    pub(crate) fn container(&self, random: &mut Random, levels: usize) -> Tree {
        if random.once_in(2) {
            let n = random.below(5);
            return Tree::Array((0..n).map(|_| self.value(random, levels - 1)).collect());
        }
        let keys: Vec<_> = self
            .texts
            .iter()
            .filter(|_| random.once_in(2))
            .take(6)
            .collect();
        let members = keys
            .into_iter()
            .map(|k| (k.clone(), self.value(random, levels - 1)));
        Tree::Object(members.collect())
    }

    /// A chain of `levels` containers, arrays and objects.
    pub(crate) fn chain(&self, random: &mut Random, levels: usize) -> Tree {
        let inner = match levels {
            1 => self.value(random, 0),
            _ => self.chain(random, levels - 1),
        };
        match self.texts.len() {
            n if n > 0 && random.once_in(2) => {
                Tree::Object(vec![(self.texts[random.below(n)].clone(), inner)])
            }
            _ => Tree::Array(vec![inner]),
        }
    }
}

/// A document: nested by chance, one scalar, or a chain of containers about as deep as may be.
pub fn document(random: &mut Random, order: Order) -> Vec<u8> {
    let pool = Pool::new(random);
    let tree = match random.below(12) {
        0 => pool.value(random, 0),
        1 => {
            let levels = DEEPEST - 3 + random.below(6);
            pool.chain(random, levels)
        }
        _ => pool.container(random, 5),
    };
    document_in(&tree, &pool.tree(), order)
}

/// The word at an offset.
pub(crate) fn word(doc: &[u8], at: usize) -> u32 {
    u32::from_le_bytes([doc[at], doc[at + 1], doc[at + 2], doc[at + 3]])
}

/// How many words the tree has by the header, but no more than the document.
pub(crate) fn tree_words(doc: &[u8]) -> usize {
    let words = match doc.len() {
        0..4 => 0,
        _ => (string_index(doc) / 4).saturating_sub(1),
    };
    words.min(doc.len() / 4)
}

/// The offset of the string index by the header.
pub(crate) fn string_index(doc: &[u8]) -> usize {
    word(doc, 0) as usize >> 5
}
