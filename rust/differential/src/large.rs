//! Documents over 65,536 bytes that keep the rules, but for what is spoilt by chance: wide containers, long texts and keys, many
//! small trees, chains about as deep as may be and empty containers, several of these beside each other.

use crate::DEEPEST;
use crate::binary_json::{Pool, string_index};
use crate::containers::spoil_containers;
use crate::fractured_json::Writer;
use crate::random::Random;
use crate::spoil::spoil_at;
use documents::Tree;
use documents::binary_json::{Order, document_in};
use documents::fractured_json::{ARRAY, Form, OBJECT};
use std::mem;

/// The least length, unless spoilt.
const LEAST: usize = 65_537;

/// About how long a document is to be: most have some 100,000 bytes, a few several millions.
fn size(random: &mut Random) -> usize {
    match random.below(80) {
        0 => 2_000_000 + random.below(4_000_000),
        1..=8 => 200_000 + random.below(800_000),
        _ => LEAST + random.below(100_000),
    }
}

/// The bytes shared out by chance among so many sections.
fn shares(random: &mut Random, bytes: usize, sections: usize) -> Vec<usize> {
    let weights: Vec<usize> = (0..sections).map(|_| 1 + random.below(9)).collect();
    let all: usize = weights.iter().sum();
    weights.iter().map(|w| bytes * w / all + 1).collect()
}

/// A text of so many bytes: a pattern over and over, changed at a few places.
fn long_text(random: &mut Random, length: usize) -> Vec<u8> {
    let mut pattern = random.text(20);
    pattern.extend(&random.bits().to_le_bytes()[random.below(8)..]);
    let mut text = pattern.repeat(1 + length / pattern.len());
    text.truncate(length);
    for _ in 0..random.below(4) {
        if length > 0 {
            text[random.below(length)] = random.bits() as u8;
        }
    }
    text
}

/// The length of a long text, often around the most that 16 bits can say.
fn long_length(random: &mut Random, most: usize) -> usize {
    let length = match random.below(3) {
        0 => 65_534 + random.below(4),
        1 => random.below(70_000),
        _ => random.below(most + 1),
    };
    length.min(most)
}

/// A document spoilt in half of the cases: once or more, near an end, in its first `head` bytes or anywhere.
fn spoilt(random: &mut Random, mut doc: Vec<u8>, head: usize) -> Vec<u8> {
    assert!(doc.len() >= LEAST, "only {} bytes", doc.len());
    for _ in 0..random.pick(&[0, 0, 0, 1, 1, 3]) {
        if doc.is_empty() {
            break;
        }
        let near = random.below(doc.len().min(300));
        let at = match random.below(5) {
            0 => near,
            1 => doc.len() - 1 - near,
            2 | 3 => random.below(head.min(doc.len())),
            _ => random.below(doc.len()),
        };
        spoil_at(random, &mut doc, at);
    }
    doc
}

/// What a large BinaryJson document is made of.
struct Stock {
    pool: Pool,
    /// Texts that are used at most once, as each use is a copy.
    long: Vec<Vec<u8>>,
}

impl Stock {
    fn new(random: &mut Random, bytes: usize) -> Self {
        let most = random.pick(&[3, 12, 12, 30]);
        let count = random.pick(&[10, 300, 3_000, 25_000, bytes / 12]);
        let mut texts: Vec<Vec<u8>> = (0..count).map(|_| random.text(most)).collect();
        texts.sort();
        texts.dedup();
        // once in a while a number is not finite, and a document that uses it is refused
        let finite = random.pick(&[500, usize::MAX, usize::MAX]);
        let count = random.pick(&[4, 300, 2_000, 25_000, bytes / 16]);
        let numbers = (0..count).map(|_| random.float(finite)).collect();
        let long = (0..random.below(4))
            .map(|_| {
                let length = long_length(random, bytes);
                long_text(random, length)
            })
            .collect();
        Stock {
            pool: Pool { texts, numbers },
            long,
        }
    }

    /// A few texts beside each other and a few numbers, for one small tree.
    fn part(&self, random: &mut Random) -> Pool {
        let Pool { texts, numbers } = &self.pool;
        Pool {
            texts: random.part(texts, 8).to_vec(),
            numbers: random.part(numbers, 3).to_vec(),
        }
    }

    /// A container whose tree takes about so many bytes; `above` containers stand around it.
    fn section(&mut self, random: &mut Random, bytes: usize, above: usize) -> Tree {
        match random.below(6) {
            // an object of many members
            0 => {
                let every = 1 + 8 * self.pool.texts.len() / bytes;
                let keys: Vec<_> = (self.pool.texts.iter())
                    .filter(|_| random.once_in(every))
                    .collect();
                let members = keys
                    .into_iter()
                    .map(|key| (key.clone(), self.pool.value(random, 0)));
                Tree::Object(members.collect())
            }
            // long texts, as keys and as strings
            1 => {
                let half = self.long.len() / 2;
                let mut keys: Vec<_> = self.long.drain(half..).collect();
                keys.sort();
                keys.dedup();
                let mut values = mem::take(&mut self.long).into_iter();
                let members = keys.into_iter().map(|key| {
                    let value = match values.next() {
                        Some(text) => Tree::Text(text),
                        None => self.pool.value(random, 2),
                    };
                    (key, value)
                });
                Tree::Object(members.collect())
            }
            // small trees
            2 => Tree::Array(
                (0..bytes / 70)
                    .map(|_| self.part(random).container(random, 5))
                    .collect(),
            ),
            // chains
            3 => {
                let too_deep = random.once_in(4);
                let mut chains: Vec<_> = (0..1 + bytes / 700)
                    .map(|_| {
                        let levels = DEEPEST - above - 1 - random.below(5);
                        self.part(random).chain(random, levels)
                    })
                    .collect();
                if too_deep {
                    let at = random.below(chains.len());
                    chains[at] = self.part(random).chain(random, DEEPEST - above);
                }
                Tree::Array(chains)
            }
            // empty containers
            4 => Tree::Array(
                (0..bytes / 8)
                    .map(|_| match random.below(2) {
                        0 => Tree::Array(Vec::new()),
                        _ => Tree::Object(Vec::new()),
                    })
                    .collect(),
            ),
            // an array of many elements
            _ => Tree::Array((0..bytes / 4).map(|_| self.pool.value(random, 0)).collect()),
        }
    }
}

/// A large BinaryJson document in an order of containers.
pub fn binary_json(random: &mut Random, order: Order) -> Vec<u8> {
    let bytes = size(random);
    let mut stock = Stock::new(random, bytes);
    let unused = match random.below(2) {
        0 => Tree::Null,
        _ => stock.pool.tree(),
    };
    let tree = match random.below(20) {
        0 => match stock.long.pop() {
            Some(text) => Tree::Text(text),
            None => stock.pool.value(random, 0),
        },
        1..=8 => stock.section(random, bytes, 0),
        _ => {
            let sections = 1 + random.below(4);
            let sections = shares(random, bytes, sections)
                .into_iter()
                .map(|share| stock.section(random, share, 1));
            Tree::Array(sections.collect())
        }
    };
    let mut doc = document_in(&tree, &unused, order);
    while doc.len() < LEAST {
        // numbers that nothing uses
        doc.extend(random.bits().to_le_bytes());
    }
    if random.below(5) < 2 {
        spoil_containers(random, &mut doc);
        return doc;
    }
    // more often in the tree than in what follows it
    let tree = string_index(&doc);
    spoilt(random, doc, tree)
}

impl Writer<'_> {
    /// A container of items that take at least so many bytes; `item` is told how many containers stand around it. By chance it
    /// has about as many items as 16 bits can count, or more.
    fn filled(&mut self, bytes: usize, above: usize, item: fn(&mut Self, usize)) {
        let object = self.random.once_in(2);
        let least = match self.random.below(5) {
            0 if bytes > 50_000 => 65_534 + self.random.below(4),
            _ => 1,
        };
        let before = mem::take(&mut self.doc);
        let mut n = 0;
        while self.doc.len() < bytes || n < least {
            if object {
                self.key();
            }
            // small ones if there are to be so many
            match least {
                1 => item(self, above + 1),
                _ => self.tiny(),
            }
            n += 1;
        }
        self.put_around(before, if object { &OBJECT } else { &ARRAY }, n);
    }

    /// Ends a container: what has been written since `before` was taken are its `n` items.
    fn put_around(&mut self, before: Vec<u8>, form: &Form, n: usize) {
        let items = mem::replace(&mut self.doc, before);
        self.length(form, n);
        self.doc.extend(items);
    }

    /// A container of at least so many bytes, with `above` containers around it.
    fn section(&mut self, bytes: usize, above: usize) {
        match self.random.below(8) {
            0 => self.filled(bytes, above, |w, _| w.tiny()),
            1 => self.filled(bytes, above, |w, _| w.scalar()),
            2 => self.filled(bytes, above, |w, _| w.value(5)),
            3 => self.filled(bytes, above, Self::chain_below),
            4 => self.filled(bytes, above, |w, _| w.empty()),
            5 => self.filled(bytes, above, |w, _| w.long_string()),
            6 => self.long_keys(bytes),
            _ => self.many_keys(bytes),
        }
    }

    /// A value of one byte.
    fn tiny(&mut self) {
        let byte = self.random.pick(&[0x00, 0x01, 0x02, 0x16, 0xBE, 0xFD]);
        self.doc.push(byte);
    }

    /// An empty container.
    fn empty(&mut self) {
        let form = self.random.pick(&[&OBJECT, &ARRAY]);
        self.length(form, 0);
    }

    /// A chain below so many containers, about as deep as may be, and rarely deeper.
    fn chain_below(&mut self, above: usize) {
        let levels = if self.random.once_in(1_000) {
            DEEPEST + 1
        } else {
            DEEPEST - self.random.below(5)
        };
        self.chain(levels - above);
    }

    fn long_string(&mut self) {
        let length = long_length(self.random, 200_000);
        let text = long_text(self.random, length);
        self.string(&text);
    }

    /// An object with long keys, some of which differ in their last byte alone.
    fn long_keys(&mut self, bytes: usize) {
        let before = mem::take(&mut self.doc);
        let mut n = 0;
        while self.doc.len() < bytes {
            if !self.is_full() {
                let length = long_length(self.random, 65_535);
                let text = long_text(self.random, length);
                let mut other = text.clone();
                if let Some(last) = other.last_mut() {
                    *last ^= 1;
                }
                for text in [text, other] {
                    self.key_of(text);
                    self.scalar();
                }
                n += 2;
            }
            self.key();
            self.tiny();
            n += 1;
        }
        self.put_around(before, &OBJECT, n);
    }

    /// An object of as many immediate keys as there may be, and then others.
    fn many_keys(&mut self, bytes: usize) {
        let before = mem::take(&mut self.doc);
        let mut n = 0;
        while self.doc.len() < bytes {
            if n < self.most_keys {
                let start = (n as u16).to_le_bytes();
                let text = [&start, &self.random.text(3)[..]].concat();
                self.key_of(text);
            } else {
                self.key();
            }
            self.tiny();
            n += 1;
        }
        self.put_around(before, &OBJECT, n);
    }
}

/// A large Fractured JSON document with global keys out of these names.
pub fn fractured_json(random: &mut Random, names: &[Vec<u8>]) -> Vec<u8> {
    let bytes = size(random);
    let sections = random.below(5);
    let shares = shares(random, bytes, sections.max(1));
    let mut writer = Writer::new(random, names);
    writer.slips = false;
    let most_keys = [1, 100, 1_000, 4_095, 4_096, 4_096, 4_097, 6_000];
    writer.most_keys = writer.random.pick(&most_keys);
    writer.key_length = writer.random.pick(&[3, 8, 12]);
    if writer.random.once_in(30) {
        // one string
        let text = long_text(writer.random, bytes);
        writer.string(&text);
    } else {
        if sections > 0 {
            writer.length(&ARRAY, sections);
        }
        for (i, share) in shares.iter().enumerate() {
            let last = i + 1 == shares.len();
            writer.slips = last && writer.random.once_in(6);
            writer.section(*share, sections.min(1));
        }
    }
    let doc = writer.doc;
    let len = doc.len();
    spoilt(random, doc, len)
}

/// A key table to lend: mostly one for as many keys as there may be, else smaller or larger, with words that must stay.
pub fn table(random: &mut Random) -> Vec<u32> {
    let words = match random.below(3) {
        0 => random.pick(&[0, 1, 2, 200, 5_000, 8_190, 8_191, 8_193, 8_194, 10_000]),
        _ => 8_192,
    };
    (0..words)
        .map(|_| random.bits() as u32 >> random.below(32))
        .collect()
}
