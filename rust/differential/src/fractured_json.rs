//! Key lists and Fractured JSON documents that keep the rules, but for what is spoilt by chance.

use crate::DEEPEST;
use crate::random::Random;
use crate::spoil::spoil;
use documents::fractured_json::{
    ARRAY, BACK_REFERENCE, Form, GLOBAL_INDEX, IMMEDIATE, OBJECT, STRING, key_list, least_v_uint16,
};
use std::collections::BTreeMap;

/// The names of a key list, none twice: few, as short as most keys, or several hundred.
pub fn names(random: &mut Random) -> Vec<Vec<u8>> {
    if random.once_in(4_000) {
        let count = 200 + random.below(500) as u16;
        return (0..count)
            .map(|n| [&n.to_le_bytes(), &random.text(10)[..]].concat())
            .collect();
    }
    let mut names = Vec::new();
    for _ in 0..random.below(6) {
        let name = random.text(3);
        if !names.contains(&name) {
            names.push(name);
        }
    }
    names
}

/// A key list of these names, by chance with a name twice, cut, with bytes left over, with another config or spoilt.
pub fn list(random: &mut Random, names: &[Vec<u8>]) -> Vec<u8> {
    let mut names = names.to_vec();
    if !names.is_empty() && random.once_in(60) {
        let twice = names[random.below(names.len())].clone();
        names.insert(random.below(names.len() + 1), twice);
    }
    let mut list = key_list(&names);
    match random.below(60) {
        0 => list.truncate(random.below(list.len())),
        1 => list.extend(&random.bits().to_le_bytes()[random.below(8)..]),
        2 => list[0] = 1 + random.below(255) as u8,
        3 => spoil(random, &mut list),
        _ => {}
    }
    list
}

pub(crate) struct Writer<'a> {
    pub(crate) random: &'a mut Random,
    pub(crate) doc: Vec<u8>,
    /// The names of the key list.
    names: &'a [Vec<u8>],
    /// The number of each immediate key so far.
    keys: BTreeMap<Vec<u8>, usize>,
    /// The most immediate keys that are written, at least 1.
    pub(crate) most_keys: usize,
    /// Most immediate keys have at most so many bytes.
    pub(crate) key_length: usize,
    /// Whether a rule is broken by chance.
    pub(crate) slips: bool,
}

impl<'a> Writer<'a> {
    pub(crate) fn new(random: &'a mut Random, names: &'a [Vec<u8>]) -> Self {
        Writer {
            random,
            doc: b"FJ\x01".to_vec(),
            names,
            keys: BTreeMap::new(),
            most_keys: usize::MAX,
            key_length: 3,
            slips: true,
        }
    }

    /// Whether a rule is broken here, once in `n` times.
    pub(crate) fn slip(&mut self, n: usize) -> bool {
        self.slips && self.random.once_in(n)
    }

    /// A length: in the type byte if it is a tiny one, or spelled after it.
    pub(crate) fn length(&mut self, form: &Form, n: usize) {
        let spelled = n >= form.tiny || self.random.once_in(4);
        let width = spelled.then(|| self.random.below(3));
        form.put_length(&mut self.doc, n, width);
    }

    /// A key byte with its number in it, or after it, by chance in a longer spelling than it needs.
    fn key_number(&mut self, form: &Form, n: usize) {
        let spelled = n >= form.tiny || self.random.once_in(4);
        let least = least_v_uint16(n);
        let bytes = spelled.then(|| least + self.random.below(4 - least));
        form.put_key_number(&mut self.doc, n, bytes);
    }

    pub(crate) fn key(&mut self) {
        if self.slip(60) {
            // at the count of names or past it
            let n = self.names.len() + self.random.pick(&[0, 0, 1, 80, 300, 20_000]);
            return self.key_number(&GLOBAL_INDEX, n);
        }
        if !self.names.is_empty() && self.random.once_in(4) {
            let n = self.random.below(self.names.len());
            return self.key_number(&GLOBAL_INDEX, n);
        }
        if self.slip(40) {
            // one that was met before
            let from = self.random.text(2);
            let met = self.keys.range(from..).next();
            if let Some(text) = met.map(|(text, _)| text.clone()) {
                return self.immediate(text);
            }
        }
        if !self.keys.is_empty() && self.random.once_in(2) {
            return self.back_reference();
        }
        let text = if !self.names.is_empty() && self.random.once_in(6) {
            self.names[self.random.below(self.names.len())].clone()
        } else {
            let long = self.random.once_in(30);
            let most = if long { 90 } else { self.key_length };
            self.random.text(most)
        };
        self.key_of(text);
    }

    /// Whether there are enough immediate keys.
    pub(crate) fn is_full(&self) -> bool {
        self.keys.len() >= self.most_keys
    }

    /// A key of this text, immediate if it is new; but another key where there are enough immediate ones.
    pub(crate) fn key_of(&mut self, text: Vec<u8>) {
        match self.keys.get(&text) {
            Some(&n) => self.key_number(&BACK_REFERENCE, n),
            None if self.is_full() => self.back_reference(),
            None => self.immediate(text),
        }
    }

    fn immediate(&mut self, text: Vec<u8>) {
        self.key_number(&IMMEDIATE, text.len());
        self.doc.extend(&text);
        self.keys.insert(text, self.keys.len());
    }

    fn back_reference(&mut self) {
        // once in 20 times the index may be one too many
        let beyond = usize::from(self.slip(20));
        let n = self.random.below(self.keys.len() + beyond);
        self.key_number(&BACK_REFERENCE, n);
    }

    pub(crate) fn scalar(&mut self) {
        match self.random.below(8) {
            0 => {
                let plain = self.random.below(3) as u8;
                self.doc.push(plain);
            }
            1 => {
                let tiny = 0xBE + self.random.below(64) as u8;
                self.doc.push(tiny);
            }
            2 | 3 => {
                let row = self.random.below(8);
                let bits = self.random.bits();
                self.doc.push(3 + row as u8);
                self.doc.extend(&bits.to_le_bytes()[..1 << (row / 2)]);
            }
            4 => {
                let bits = (self.random.bits() as u32) & !(1 << 27);
                let bits = if self.slip(40) { 0x7F80_0000 } else { bits };
                self.doc.push(0x0B);
                self.doc.extend(bits.to_le_bytes());
            }
            5 => {
                let bits = self.random.float(if self.slips { 40 } else { usize::MAX });
                self.doc.push(0x0C);
                self.doc.extend(bits.to_le_bytes());
            }
            _ => {
                let most = if self.random.once_in(20) { 120 } else { 5 };
                let text = self.random.text(most);
                self.string(&text);
            }
        }
    }

    pub(crate) fn string(&mut self, text: &[u8]) {
        self.length(&STRING, text.len());
        self.doc.extend(text);
    }

    pub(crate) fn value(&mut self, levels: usize) {
        if levels == 0 || self.random.once_in(2) {
            return self.scalar();
        }
        let n = if self.random.once_in(40) {
            30 + self.random.below(25)
        } else {
            self.random.below(5)
        };
        let levels = if n > 20 { 0 } else { levels - 1 };
        if self.random.once_in(2) {
            self.length(&ARRAY, n);
            for _ in 0..n {
                self.value(levels);
            }
        } else {
            self.length(&OBJECT, n);
            for _ in 0..n {
                self.key();
                self.value(levels);
            }
        }
    }

    /// A chain of `levels` containers.
    pub(crate) fn chain(&mut self, levels: usize) {
        for _ in 0..levels {
            if self.random.once_in(2) {
                self.length(&ARRAY, 1);
            } else {
                self.length(&OBJECT, 1);
                self.key();
            }
        }
        self.scalar();
    }
}

/// A document with global keys out of these names: nested by chance, or a chain of containers about as deep as may be.
pub fn document(random: &mut Random, names: &[Vec<u8>]) -> Vec<u8> {
    let mut writer = Writer::new(random, names);
    if writer.random.once_in(12) {
        let levels = DEEPEST - 3 + writer.random.below(6);
        writer.chain(levels);
    } else {
        writer.value(5);
    }
    writer.doc
}

/// A key table to lend: often too small, and with words that must stay.
pub fn table(random: &mut Random) -> Vec<u32> {
    let words = random.pick(&[0, 1, 2, 3, 4, 5, 6, 8, 12, 20, 64, 64, 64, 200]);
    (0..words)
        .map(|_| random.bits() as u32 >> random.below(32))
        .collect()
}
