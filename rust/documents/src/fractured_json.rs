//! A tree as Fractured JSON, in the shortest spelling, with global keys or keys that are immediate where they first occur; key
//! lists; and all spellings of lengths and keys, for other writers.

use crate::Tree;
use std::collections::HashMap;

/// The type bytes or key bytes of one sort, each of which says a number: a length or an index.
pub struct Form {
    /// The byte that says 0; those that say the next numbers follow.
    first: u8,
    /// How many numbers have a byte of their own.
    pub tiny: usize,
    /// The byte after which the number is spelled.
    spelled: u8,
}

const fn form(first: u8, tiny: usize, spelled: u8) -> Form {
    Form {
        first,
        tiny,
        spelled,
    }
}

// Type bytes, with a length.
pub const STRING: Form = form(0x16, 88, 0x0D);
pub const OBJECT: Form = form(0x6E, 48, 0x10);
pub const ARRAY: Form = form(0x9E, 32, 0x13);

// Key bytes, with the length of the text or its index.
pub const IMMEDIATE: Form = form(0x03, 84, 0x00);
pub const BACK_REFERENCE: Form = form(0x57, 84, 0x01);
pub const GLOBAL_INDEX: Form = form(0xAB, 84, 0x02);

impl Form {
    /// A length: in the shortest spelling, or after the type byte in at least 1, 2 or 4 bytes, for `width` 0, 1 or 2.
    pub fn put_length(&self, doc: &mut Vec<u8>, n: usize, width: Option<usize>) {
        match width.unwrap_or(0) {
            _ if width.is_none() && n < self.tiny => doc.push(self.first + n as u8),
            0 if n < 256 => doc.extend([self.spelled, n as u8]),
            0 | 1 if n < 65_536 => {
                doc.push(self.spelled + 1);
                doc.extend((n as u16).to_le_bytes());
            }
            _ => {
                doc.push(self.spelled + 2);
                doc.extend((n as u32).to_le_bytes());
            }
        }
    }

    /// The number of a key: in the shortest spelling, or as a v_uint16 of so many bytes after the key byte.
    pub fn put_key_number(&self, doc: &mut Vec<u8>, n: usize, bytes: Option<usize>) {
        if bytes.is_none() && n < self.tiny {
            return doc.push(self.first + n as u8);
        }
        doc.push(self.spelled);
        let bytes = bytes.unwrap_or(least_v_uint16(n));
        for i in 0..bytes {
            let more = if i + 1 < bytes { 0x80 } else { 0 };
            doc.push(((n >> (7 * i)) & 0x7F) as u8 | more);
        }
    }
}

/// The fewest bytes that a v_uint16 takes.
pub fn least_v_uint16(n: usize) -> usize {
    match n {
        0..=0x7F => 1,
        0x80..=0x3FFF => 2,
        _ => 3,
    }
}

struct Writer<'a> {
    doc: Vec<u8>,
    /// The number of each name of the key list.
    names: HashMap<&'a [u8], usize>,
    /// The number of each immediate key so far.
    keys: HashMap<&'a [u8], usize>,
}

impl<'a> Writer<'a> {
    fn key(&mut self, text: &'a [u8]) {
        if let Some(&n) = self.names.get(text) {
            return GLOBAL_INDEX.put_key_number(&mut self.doc, n, None);
        }
        if let Some(&n) = self.keys.get(text) {
            return BACK_REFERENCE.put_key_number(&mut self.doc, n, None);
        }
        self.keys.insert(text, self.keys.len());
        IMMEDIATE.put_key_number(&mut self.doc, text.len(), None);
        self.doc.extend(text);
    }

    fn value(&mut self, tree: &'a Tree) {
        match tree {
            Tree::Null => self.doc.push(0x00),
            Tree::Bool(b) => self.doc.push(0x01 + u8::from(*b)),
            Tree::Number(bits) => {
                self.doc.push(0x0C);
                self.doc.extend(bits.to_le_bytes());
            }
            Tree::Text(text) => {
                STRING.put_length(&mut self.doc, text.len(), None);
                self.doc.extend(text);
            }
            Tree::Array(items) => {
                ARRAY.put_length(&mut self.doc, items.len(), None);
                for item in items {
                    self.value(item);
                }
            }
            Tree::Object(members) => {
                OBJECT.put_length(&mut self.doc, members.len(), None);
                for (key, value) in members {
                    self.key(key);
                    self.value(value);
                }
            }
        }
    }
}

/// The document of a tree; keys that are among the names of the key list are global.
pub fn document(tree: &Tree, names: &[Vec<u8>]) -> Vec<u8> {
    let mut writer = Writer {
        doc: b"FJ\x01".to_vec(),
        names: names
            .iter()
            .enumerate()
            .map(|(n, name)| (&name[..], n))
            .collect(),
        keys: HashMap::new(),
    };
    writer.value(tree);
    writer.doc
}

/// The key list of these names.
pub fn key_list(names: &[Vec<u8>]) -> Vec<u8> {
    let mut list = vec![0];
    list.extend((names.len() as u16).to_le_bytes());
    for name in names {
        list.extend((name.len() as u16).to_le_bytes());
        list.extend(name);
    }
    list
}
