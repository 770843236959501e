//! BinaryJson: the check, the questions, both lookups, and a view of the tree.
//!
//! A document is a tree of four-byte words, an index of strings in ascending order and an area of numbers. A container
//! is known by the offset of its Meta word, a value in it by the offset of its Entry, a string by the offset of its slot.
//! Containers may stand in any order, each after its parent's Meta; each word of the tree belongs to exactly one.
//!
//! Accept, and look up:
//!
//! ```
//! use czubrotek::binary_json::{Document, Lookup, TreeOffset, Type};
//!
//! // {"a":true}
//! let bytes = b"\x01\x02\0\0\x21\0\0\0\x14\0\0\0\x01\0\0\0\x01\0\0\0\x40\x03\0\0a\0";
//! let document = Document::check(bytes)?;
//! let found = document.quick_lookup(document.root(), b"a")?;
//! let entry = TreeOffset(12);
//! assert_eq!(found, Lookup { entry: Some(entry), string_comparisons: 1, key_comparisons: 1 });
//! assert_eq!(document.entry_type(entry)?, Type::True);
//! let absent = document.quick_lookup(document.root(), b"b")?;
//! assert_eq!(absent, Lookup { entry: None, string_comparisons: 1, key_comparisons: 0 });
//! # Ok::<(), czubrotek::Refusal>(())
//! ```
//!
//! Refuse:
//!
//! ```
//! use czubrotek::{Refusal, binary_json::Document};
//!
//! // the empty array, and its first 11 bytes
//! let bytes = b"\x01\x01\0\0\0\0\0\0\0\0\0\0";
//! assert!(Document::check(bytes).is_ok());
//! assert_eq!(Document::check(&bytes[..11]).unwrap_err(), Refusal { number: 1, place: 11 });
//! ```

mod value;

pub use value::{Array, Elements, Members, Object, Value};

use crate::{Refusal, ask, range};
use czubrotek_sys as sys;
use std::ops::Range;

/// The offset of a word of the tree: a Meta or an Entry.
#[derive(Debug, Clone, Copy, PartialEq, Eq, PartialOrd, Ord, Hash)]
pub struct TreeOffset(pub u64);

/// The offset of a slot of the string index.
#[derive(Debug, Clone, Copy, PartialEq, Eq, PartialOrd, Ord, Hash)]
pub struct SlotOffset(pub u64);

/// The kind of a container, as its Meta says.
#[derive(Debug, Clone, Copy, PartialEq, Eq, Hash)]
pub enum Kind {
    /// Kind 0.
    Array,
    /// Kind 1.
    Object,
    /// Kind 2, a top-level scalar: the root of a document whose value is no container, which is its element 0.
    Scalar,
}

/// The type of an Entry.
#[derive(Debug, Clone, Copy, PartialEq, Eq, Hash)]
pub enum Type {
    /// Type 0.
    False,
    /// Type 1.
    True,
    /// Type 2.
    Null,
    /// Type 3.
    String,
    /// Type 4.
    Number,
    /// Type 5, an array or object.
    Container,
}

/// A member of an object: the slot of its key and the Entry of its value.
#[derive(Debug, Clone, Copy, PartialEq, Eq, Hash)]
pub struct Member {
    /// The slot of the key.
    pub slot: SlotOffset,
    /// The Entry of the value.
    pub entry: TreeOffset,
}

/// What the quick lookup found, and how often it compared.
#[derive(Debug, Clone, Copy, PartialEq, Eq, Hash)]
pub struct Lookup {
    /// The Entry of the member with the key, if there is one.
    pub entry: Option<TreeOffset>,
    /// Comparisons of the first halving, over the strings.
    pub string_comparisons: u64,
    /// Comparisons of the second halving, over the object's KeyEntries.
    pub key_comparisons: u64,
}

/// A finite binary64 number.
#[derive(Debug, Clone, Copy, PartialEq, Eq, Hash)]
pub struct Number {
    bits: u64,
}

impl Number {
    /// Its 64 bits.
    pub fn bits(self) -> u64 {
        self.bits
    }

    /// Its value, exactly.
    pub fn to_f64(self) -> f64 {
        f64::from_bits(self.bits)
    }
}

/// How many marks are enough to check a document of so many bytes: a quarter of its length. Over 16,777,216 bytes it
/// stays at 4,194,304, as such a document is refused before any mark is asked for.
pub const fn marks_enough(length: usize) -> usize {
    const MOST: usize = 16_777_216 / 4;
    if length / 4 < MOST { length / 4 } else { MOST }
}

/// A BinaryJson document, checked or not.
#[derive(Debug, Clone, Copy)]
pub struct Document<'a> {
    bytes: &'a [u8],
}

impl<'a> Document<'a> {
    /// Checks the bytes: exactly those that keep every rule are accepted. Refusals 1 to 14. The check brings the marks
    /// that it needs.
    pub fn check(bytes: &'a [u8]) -> Result<Document<'a>, Refusal> {
        let enough = marks_enough(bytes.len());
        // documents of up to 1,027 bytes do without the heap, which is faster
        let mut few = [0; 256];
        match few.get_mut(..enough) {
            Some(marks) => Document::check_with_marks(bytes, marks),
            None => Document::check_with_marks(bytes, &mut vec![0; enough]),
        }
    }

    /// Checks as [`check`](Document::check) does, with lent marks: a byte for each word of the tree, mark k for the
    /// word at 4+4k. [`marks_enough`] of them are always enough, and too few are 15, at the offset of the string index.
    /// What they hold before is never asked.
    ///
    /// The body of each container that passes 12, 8 and 14 is marked, its Meta included. After refusals 1 to 7 and 15
    /// the marks hold what they held. Otherwise those of the tree's words are 1 in the bodies marked and 0 elsewhere,
    /// so all 1 after acceptance, and those beyond hold what they held.
    ///
    /// ```
    /// use czubrotek::{Refusal, binary_json::{Document, marks_enough}};
    ///
    /// // [[]], whose tree has three words
    /// let bytes = b"\x01\x02\0\0\x20\0\0\0\x85\x01\0\0\0\0\0\0\0\0\0\0";
    /// let mut marks = [7; marks_enough(20)];
    /// assert!(Document::check_with_marks(bytes, &mut marks).is_ok());
    /// assert_eq!(marks, [1, 1, 1, 7, 7]);
    ///
    /// // two marks are too few, and stay as they are
    /// let mut marks = [7; 2];
    /// let refusal = Document::check_with_marks(bytes, &mut marks).unwrap_err();
    /// assert_eq!(refusal, Refusal { number: 15, place: 16 });
    /// assert_eq!(marks, [7, 7]);
    ///
    /// // [[]] again, with a word between the two arrays that belongs to neither
    /// let bytes = b"\x81\x02\0\0\x20\0\0\0\x05\x02\0\0\0\0\0\0\0\0\0\0\0\0\0\0";
    /// let mut marks = [7; marks_enough(24)];
    /// let refusal = Document::check_with_marks(bytes, &mut marks).unwrap_err();
    /// assert_eq!(refusal, Refusal { number: 13, place: 12 });
    /// assert_eq!(marks, [1, 1, 0, 1, 7, 7]);
    /// ```
    pub fn check_with_marks(bytes: &'a [u8], marks: &mut [u8]) -> Result<Document<'a>, Refusal> {
        ask::<1>(|out| sys::bj_check(bytes, marks, out))?;
        Ok(Document { bytes })
    }

    /// Takes the bytes as they are. Every question is answered or refused (1 to 4, 10, 20 to 22), but what the answers
    /// describe need be no tree: a container may name itself.
    ///
    /// ```
    /// use czubrotek::binary_json::{Document, TreeOffset};
    ///
    /// // an array that names itself, which a check refuses
    /// let document = Document::unchecked(b"\x81\x01\0\0\x20\0\0\0\x85\0\0\0\0\0\0\0");
    /// let entry = document.element(document.root(), 0)?;
    /// assert_eq!(document.container(entry)?, document.root());
    /// # Ok::<(), czubrotek::Refusal>(())
    /// ```
    pub fn unchecked(bytes: &'a [u8]) -> Document<'a> {
        Document { bytes }
    }

    /// The document's bytes.
    pub fn bytes(&self) -> &'a [u8] {
        self.bytes
    }

    /// The Meta of the root container, which is always at 4.
    pub fn root(&self) -> TreeOffset {
        TreeOffset(4)
    }

    /// Kind and size of the container at a Meta.
    pub fn kind_and_size(&self, meta: TreeOffset) -> Result<(Kind, usize), Refusal> {
        let [kind, size] = ask(|out| sys::bj_kind_and_size(self.bytes, meta.0, out))?;
        let kind = match kind {
            0 => Kind::Array,
            1 => Kind::Object,
            // 2: the library's contract leaves no other
            _ => Kind::Scalar,
        };
        Ok((kind, size as usize))
    }

    /// The Entry of element `i` of the array, or top-level scalar, at a Meta.
    pub fn element(&self, meta: TreeOffset, i: usize) -> Result<TreeOffset, Refusal> {
        let [entry] = ask(|out| sys::bj_element(self.bytes, meta.0, i as u64, out))?;
        Ok(TreeOffset(entry))
    }

    /// Slot and Entry of member `j` of the object at a Meta.
    pub fn member(&self, meta: TreeOffset, j: usize) -> Result<Member, Refusal> {
        let [slot, entry] = ask(|out| sys::bj_member(self.bytes, meta.0, j as u64, out))?;
        Ok(Member {
            slot: SlotOffset(slot),
            entry: TreeOffset(entry),
        })
    }

    /// The type of an Entry.
    pub fn entry_type(&self, entry: TreeOffset) -> Result<Type, Refusal> {
        let [number] = ask(|out| sys::bj_entry_type(self.bytes, entry.0, out))?;
        Ok(match number {
            0 => Type::False,
            1 => Type::True,
            2 => Type::Null,
            3 => Type::String,
            4 => Type::Number,
            // 5: the library's contract leaves no other
            _ => Type::Container,
        })
    }

    /// The Meta of the container that an Entry names.
    pub fn container(&self, entry: TreeOffset) -> Result<TreeOffset, Refusal> {
        let [meta] = ask(|out| sys::bj_container(self.bytes, entry.0, out))?;
        Ok(TreeOffset(meta))
    }

    /// The text of the string that an Entry names. Texts are bytes, and need not be UTF-8.
    pub fn string(&self, entry: TreeOffset) -> Result<&'a [u8], Refusal> {
        self.text(self.string_range(entry)?, entry.0)
    }

    /// Where the text of the string that an Entry names stands in the document.
    pub fn string_range(&self, entry: TreeOffset) -> Result<Range<usize>, Refusal> {
        let [place, len] = ask(|out| sys::bj_string(self.bytes, entry.0, out))?;
        Ok(range(place, len))
    }

    /// The number that an Entry names.
    ///
    /// ```
    /// use czubrotek::binary_json::{Document, TreeOffset};
    ///
    /// // 1.0, a top-level scalar
    /// let bytes = b"\x81\x01\0\0\x22\0\0\0\x04\x02\0\0\0\0\0\0\0\0\0\0\0\0\xF0\x3F";
    /// let document = Document::check(bytes)?;
    /// let number = document.number(document.element(document.root(), 0)?)?;
    /// assert_eq!(number.to_f64(), 1.0);
    /// assert_eq!(number.bits(), 0x3FF0_0000_0000_0000);
    /// # Ok::<(), czubrotek::Refusal>(())
    /// ```
    pub fn number(&self, entry: TreeOffset) -> Result<Number, Refusal> {
        let [bits] = ask(|out| sys::bj_number(self.bytes, entry.0, out))?;
        Ok(Number { bits })
    }

    /// The text that a slot names.
    pub fn slot(&self, slot: SlotOffset) -> Result<&'a [u8], Refusal> {
        self.text(self.slot_range(slot)?, slot.0)
    }

    /// Where the text that a slot names stands in the document.
    pub fn slot_range(&self, slot: SlotOffset) -> Result<Range<usize>, Refusal> {
        let [place, len] = ask(|out| sys::bj_slot(self.bytes, slot.0, out))?;
        Ok(range(place, len))
    }

    /// Looks a key up in the object at a Meta, by halving the strings and then the object's KeyEntries.
    pub fn quick_lookup(&self, meta: TreeOffset, key: &[u8]) -> Result<Lookup, Refusal> {
        let [found, string_comparisons, key_comparisons, entry] =
            ask(|out| sys::bj_quick_lookup(self.bytes, meta.0, key, out))?;
        Ok(Lookup {
            entry: (found == 1).then_some(TreeOffset(entry)),
            string_comparisons,
            key_comparisons,
        })
    }

    /// Looks a key up in the object at a Meta, by comparing from member 0 on. In a checked document it finds what the
    /// quick lookup finds.
    pub fn plain_scan(&self, meta: TreeOffset, key: &[u8]) -> Result<Option<TreeOffset>, Refusal> {
        let [found, entry] = ask(|out| sys::bj_plain_scan(self.bytes, meta.0, key, out))?;
        Ok((found == 1).then_some(TreeOffset(entry)))
    }

    /// A part of the document. The library answers with none that lies outside; one that did would be 20 at the cursor.
    fn text(&self, range: Range<usize>, cursor: u64) -> Result<&'a [u8], Refusal> {
        let outside = Refusal {
            number: 20,
            place: cursor,
        };
        self.bytes.get(range).ok_or(outside)
    }
}
