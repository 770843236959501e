//! Fractured JSON (FJ): the check with a lent key table and key list, the questions, and a view of the tree.
//!
//! A document is the bytes 46 4A 01 and one value. A value is known by the offset of its type byte. A key's text stands
//! where it is first used and is referred to by number afterwards, so reading keys needs the key table that the check
//! fills: two words for each key, start and length of its text.
//!
//! Accept, look up and iterate:
//!
//! ```
//! use czubrotek::fractured_json::{Document, KeyTable, Value};
//!
//! // [{"a":null},{"a":1}]
//! let bytes = b"\x46\x4A\x01\xA0\x6F\x04a\x00\x6F\x57\xDF";
//! let mut keys = KeyTable::new();
//! let document = Document::check(bytes, &mut keys)?;
//! assert_eq!(document.count(), 1);
//! let second = document.element(document.root(), 1)?;
//! let value = document.first_member(second, b"a")?.expect("a member");
//! assert_eq!(document.number(value)?.to_f64(), 1.0);
//!
//! let Value::Array(array) = document.value()? else { panic!("no array") };
//! for element in array {
//!     let Value::Object(object) = element? else { panic!("no object") };
//!     for member in object {
//!         assert_eq!(member?.0, b"a");
//!     }
//! }
//! # Ok::<(), czubrotek::Refusal>(())
//! ```
//!
//! A key may also be the number of a name in a [key list](KeyList), which documents share and the caller lends beside each:
//!
//! ```
//! use czubrotek::fractured_json::{Document, KeyList, KeyTable};
//!
//! // the names "air" and "soil"
//! let list = KeyList::check(b"\x00\x02\x00\x03\x00air\x04\x00soil")?;
//! // {"soil":14}, with the key as name 1
//! let bytes = b"\x46\x4A\x01\x6F\xAC\xEC";
//! let mut keys = KeyTable::new();
//! let document = Document::check_with_list(bytes, list, &mut keys)?;
//! let value = document.first_member(document.root(), b"soil")?.expect("a member");
//! assert_eq!(document.number(value)?.to_f64(), 14.0);
//!
//! // without the list there is no such key
//! assert_eq!(Document::check(bytes, &mut keys).unwrap_err().refusal.number, 38);
//! # Ok::<(), czubrotek::Refusal>(())
//! ```
//!
//! Refuse. The caller still has the table that it lent, and the number of keys in it:
//!
//! ```
//! use czubrotek::{Refusal, fractured_json::Document};
//!
//! // {"a":null,"a":false}, with "a" spelt out twice
//! let bytes = b"\x46\x4A\x01\x70\x04a\x00\x04a\x01";
//! let mut words = [7; 4];
//! let refused = Document::check(bytes, &mut words).unwrap_err();
//! assert_eq!(refused.refusal, Refusal { number: 39, place: 7 });
//! assert_eq!(refused.count, 1);
//! assert_eq!(words, [5, 1, 7, 7]);
//! ```

mod value;

pub use value::{Array, Elements, Members, Object, Value};

use crate::{Refusal, ask, range};
use czubrotek_sys as sys;
use std::error::Error;
use std::fmt;
use std::ops::{Deref, DerefMut, Range};

/// The most keys that a key table has room for, however many words it has.
pub const MOST_KEYS: usize = 4096;

/// The offset of a value: its type byte.
#[derive(Debug, Clone, Copy, PartialEq, Eq, PartialOrd, Ord, Hash)]
pub struct ValueOffset(pub u64);

/// The offset of a member's key: its key byte.
#[derive(Debug, Clone, Copy, PartialEq, Eq, PartialOrd, Ord, Hash)]
pub struct KeyOffset(pub u64);

/// The kind of a value, with the bytes of a string, the elements of an array or the members of an object counted.
#[derive(Debug, Clone, Copy, PartialEq, Eq, Hash)]
pub enum Kind {
    /// null.
    Null,
    /// false.
    False,
    /// true.
    True,
    /// A number of any type.
    Number,
    /// A string.
    String(usize),
    /// An object.
    Object(usize),
    /// An array.
    Array(usize),
}

/// A member of an object: its key and its value.
#[derive(Debug, Clone, Copy, PartialEq, Eq, Hash)]
pub struct Member {
    /// The key byte.
    pub key: KeyOffset,
    /// The value.
    pub value: ValueOffset,
}

/// Which of the lent bytes hold a key's text.
#[derive(Debug, Clone, Copy, PartialEq, Eq, Hash)]
pub enum Lender {
    /// The document: the key is immediate, or a back reference.
    Document,
    /// The key list: the key is a global index.
    KeyList,
}

/// A key: its text, and the value that follows it.
#[derive(Debug, Clone, Copy, PartialEq, Eq, Hash)]
pub struct Key<'a> {
    /// The text, which need not be UTF-8.
    pub text: &'a [u8],
    /// Who holds the text.
    pub lender: Lender,
    /// Where the text starts in its lender.
    pub place: usize,
    /// Where the key ends and its value starts.
    pub value: ValueOffset,
}

/// A number as it is stored: its type byte, and its payload or tiny int as 64 bits, signed integers extended by sign and all
/// others by zeros.
#[derive(Debug, Clone, Copy, PartialEq, Eq, Hash)]
pub struct NumberBits {
    type_byte: u8,
    bits: u64,
}

impl NumberBits {
    /// The type byte.
    pub fn type_byte(self) -> u8 {
        self.type_byte
    }

    /// The 64 bits.
    pub fn bits(self) -> u64 {
        self.bits
    }
}

/// A number, exactly, by the sort of its type.
#[derive(Debug, Clone, Copy, PartialEq)]
pub enum Number {
    /// int8 to int64, or a tiny int.
    Int(i64),
    /// uint8 to uint64.
    UInt(u64),
    /// A finite binary32.
    Float32(f32),
    /// A finite binary64.
    Float64(f64),
}

impl Number {
    /// The nearest `f64`: the value itself but for some integers over 2^53.
    pub fn to_f64(self) -> f64 {
        match self {
            Number::Int(n) => n as f64,
            Number::UInt(n) => n as f64,
            Number::Float32(x) => f64::from(x),
            Number::Float64(x) => x,
        }
    }
}

impl From<NumberBits> for Number {
    fn from(NumberBits { type_byte, bits }: NumberBits) -> Number {
        match type_byte {
            0x04 | 0x06 | 0x08 | 0x0A => Number::UInt(bits),
            0x0B => Number::Float32(f32::from_bits(bits as u32)),
            0x0C => Number::Float64(f64::from_bits(bits)),
            // 03, 05, 07, 09 and BE to FD: the library's contract leaves no other
            _ => Number::Int(bits as i64),
        }
    }
}

/// A key table of its own, for callers who have no words to lend. It serves wherever `&mut [u32]` does.
#[derive(Debug, Clone, PartialEq, Eq)]
pub struct KeyTable(Vec<u32>);

impl KeyTable {
    /// A table with room for as many keys as any document may have, [`MOST_KEYS`].
    pub fn new() -> KeyTable {
        KeyTable::with_room(MOST_KEYS)
    }

    /// A table with room for so many keys, at most [`MOST_KEYS`].
    pub fn with_room(keys: usize) -> KeyTable {
        KeyTable(vec![0; 2 * keys.min(MOST_KEYS)])
    }
}

impl Default for KeyTable {
    fn default() -> KeyTable {
        KeyTable::new()
    }
}

impl Deref for KeyTable {
    type Target = [u32];

    fn deref(&self) -> &[u32] {
        &self.0
    }
}

impl DerefMut for KeyTable {
    fn deref_mut(&mut self) -> &mut [u32] {
        &mut self.0
    }
}

/// A checked key list: names, none twice, that the global indices of documents count from 0.
///
/// Its bytes are a config byte 0 and a 16-bit count, then for each name its 16-bit length and its text, little endian.
///
/// Every question reads the list anew, on the stack. A call takes at most 35 KB of it with up to 1,024 names, 114 KB with up to
/// 8,192, and 786 KB with more.
#[derive(Debug, Clone, Copy, PartialEq, Eq, Hash)]
pub struct KeyList<'a> {
    bytes: &'a [u8],
}

impl<'a> KeyList<'a> {
    /// The list without names.
    pub const EMPTY: KeyList<'static> = KeyList { bytes: &[0, 0, 0] };

    /// Checks the bytes: exactly those that keep every rule of key lists are accepted. Refusals 51 to 54.
    ///
    /// ```
    /// use czubrotek::{Refusal, fractured_json::KeyList};
    ///
    /// // the name "a", twice
    /// let refusal = KeyList::check(b"\x00\x02\x00\x01\x00a\x01\x00a").unwrap_err();
    /// assert_eq!(refusal, Refusal { number: 54, place: 6 });
    /// ```
    pub fn check(bytes: &'a [u8]) -> Result<KeyList<'a>, Refusal> {
        ask::<1>(|out| sys::fj_check_list(bytes, out))?;
        Ok(KeyList { bytes })
    }

    /// The list's bytes.
    pub fn bytes(&self) -> &'a [u8] {
        self.bytes
    }
}

/// The refusal of a check, with the number of keys passed before it. Their pairs stand in the first words of the lent key
/// table; all its other words are as they were.
#[derive(Debug, Clone, Copy, PartialEq, Eq, Hash)]
pub struct Refused {
    /// The refusal, 31 to 43.
    pub refusal: Refusal,
    /// The number of pairs in the key table.
    pub count: usize,
}

impl fmt::Display for Refused {
    fn fmt(&self, f: &mut fmt::Formatter<'_>) -> fmt::Result {
        self.refusal.fmt(f)
    }
}

impl Error for Refused {}

impl From<Refused> for Refusal {
    fn from(refused: Refused) -> Refusal {
        refused.refusal
    }
}

/// A Fractured JSON document with its key list and key table, checked or not.
#[derive(Debug, Clone, Copy)]
pub struct Document<'a> {
    bytes: &'a [u8],
    list: KeyList<'a>,
    words: &'a [u32],
    count: u64,
}

impl<'a> Document<'a> {
    /// Checks the bytes: exactly those that keep every rule, and for whose keys the table has room, are accepted. The
    /// table's room is half its words rounded down, at most [`MOST_KEYS`]. The key list has no names.
    pub fn check(bytes: &'a [u8], words: &'a mut [u32]) -> Result<Document<'a>, Refused> {
        Document::check_with_list(bytes, KeyList::EMPTY, words)
    }

    /// Checks as [`check`](Document::check) does, with a key list.
    pub fn check_with_list(
        bytes: &'a [u8],
        list: KeyList<'a>,
        words: &'a mut [u32],
    ) -> Result<Document<'a>, Refused> {
        let mut out = [0; 2];
        match (sys::fj_check(bytes, list.bytes, words, &mut out), out) {
            (0, [count, _]) => Ok(Document::unchecked_with_list(
                bytes,
                list,
                words,
                count as usize,
            )),
            (number, [place, count]) => Err(Refused {
                refusal: Refusal { number, place },
                count: count as usize,
            }),
        }
    }

    /// Takes the bytes, the key table's words and the number of pairs in it as they are. Every question is answered or
    /// refused (20 to 22, 31 to 38, 41, 43); back references go by the table handed in. Nothing bounds how deep values nest.
    /// The key list has no names.
    ///
    /// ```
    /// use czubrotek::fractured_json::{Document, Kind, ValueOffset};
    ///
    /// // an array of 1 whose element has a reserved type byte, which a check refuses
    /// let document = Document::unchecked(b"\x46\x4A\x01\x9F\xFE", &[], 0);
    /// assert_eq!(document.kind(document.root())?, Kind::Array(1));
    /// assert_eq!(document.element(document.root(), 0)?, ValueOffset(4));
    /// assert_eq!(document.kind(ValueOffset(4)).unwrap_err().number, 36);
    /// # Ok::<(), czubrotek::Refusal>(())
    /// ```
    pub fn unchecked(bytes: &'a [u8], words: &'a [u32], count: usize) -> Document<'a> {
        Document::unchecked_with_list(bytes, KeyList::EMPTY, words, count)
    }

    /// Takes everything as [`unchecked`](Document::unchecked) does, with a key list.
    pub fn unchecked_with_list(
        bytes: &'a [u8],
        list: KeyList<'a>,
        words: &'a [u32],
        count: usize,
    ) -> Document<'a> {
        Document {
            bytes,
            list,
            words,
            count: count as u64,
        }
    }

    /// The document's bytes.
    pub fn bytes(&self) -> &'a [u8] {
        self.bytes
    }

    /// The key list.
    pub fn list(&self) -> KeyList<'a> {
        self.list
    }

    /// The words of the key table.
    pub fn words(&self) -> &'a [u32] {
        self.words
    }

    /// The number of pairs in the key table.
    pub fn count(&self) -> usize {
        self.count as usize
    }

    /// The root value, which is always at 3.
    pub fn root(&self) -> ValueOffset {
        ValueOffset(3)
    }

    /// Where a value ends: the offset after its last byte.
    pub fn end(&self, at: ValueOffset) -> Result<u64, Refusal> {
        let (doc, list, keys, count) = self.lent();
        let [end] = ask(|out| sys::fj_end(doc, list, keys, count, at.0, out))?;
        Ok(end)
    }

    /// The kind of a value.
    pub fn kind(&self, at: ValueOffset) -> Result<Kind, Refusal> {
        let [kind, len] = ask(|out| sys::fj_kind(self.bytes, self.list.bytes, at.0, out))?;
        Ok(match kind {
            0 => Kind::Null,
            1 => Kind::False,
            2 => Kind::True,
            3 => Kind::Number,
            4 => Kind::String(len as usize),
            5 => Kind::Object(len as usize),
            // 6: the library's contract leaves no other
            _ => Kind::Array(len as usize),
        })
    }

    /// A number.
    ///
    /// ```
    /// use czubrotek::fractured_json::{Document, Number};
    ///
    /// // [-32,31]
    /// let document = Document::check(b"\x46\x4A\x01\xA0\xBE\xFD", &mut [])?;
    /// let first = document.element(document.root(), 0)?;
    /// assert_eq!(document.number(first)?, Number::Int(-32));
    /// assert_eq!(document.number_bits(first)?.type_byte(), 0xBE);
    /// # Ok::<(), czubrotek::Refusal>(())
    /// ```
    pub fn number(&self, at: ValueOffset) -> Result<Number, Refusal> {
        self.number_bits(at).map(Number::from)
    }

    /// A number as it is stored.
    pub fn number_bits(&self, at: ValueOffset) -> Result<NumberBits, Refusal> {
        let [type_byte, bits] = ask(|out| sys::fj_number(self.bytes, self.list.bytes, at.0, out))?;
        Ok(NumberBits {
            type_byte: type_byte as u8,
            bits,
        })
    }

    /// The text of a string. Texts are bytes, and need not be UTF-8.
    pub fn string(&self, at: ValueOffset) -> Result<&'a [u8], Refusal> {
        part(self.bytes, self.string_range(at)?, at.0)
    }

    /// Where the text of a string stands in the document.
    pub fn string_range(&self, at: ValueOffset) -> Result<Range<usize>, Refusal> {
        let [place, len] = ask(|out| sys::fj_string(self.bytes, self.list.bytes, at.0, out))?;
        Ok(range(place, len))
    }

    /// Element `i` of an array. It walks the elements before it; [`Array::iter`] walks each once.
    pub fn element(&self, at: ValueOffset, i: usize) -> Result<ValueOffset, Refusal> {
        let (doc, list, keys, count) = self.lent();
        let [value] = ask(|out| sys::fj_element(doc, list, keys, count, at.0, i as u64, out))?;
        Ok(ValueOffset(value))
    }

    /// Member `j` of an object. It walks the members before it; [`Object::iter`] walks each once.
    pub fn member(&self, at: ValueOffset, j: usize) -> Result<Member, Refusal> {
        let (doc, list, keys, count) = self.lent();
        let [key, value] = ask(|out| sys::fj_member(doc, list, keys, count, at.0, j as u64, out))?;
        Ok(Member {
            key: KeyOffset(key),
            value: ValueOffset(value),
        })
    }

    /// The value of the first member of an object that has a key.
    pub fn first_member(
        &self,
        at: ValueOffset,
        key: &[u8],
    ) -> Result<Option<ValueOffset>, Refusal> {
        let (doc, list, keys, count) = self.lent();
        let [found, value] =
            ask(|out| sys::fj_first_member(doc, list, keys, count, at.0, key, out))?;
        Ok((found == 1).then_some(ValueOffset(value)))
    }

    /// The key at a key byte.
    ///
    /// ```
    /// use czubrotek::fractured_json::{Document, KeyList, KeyTable, Lender};
    ///
    /// // {"a":true,"air":null}, with "air" as name 0 of the key list
    /// let list = KeyList::check(b"\x00\x01\x00\x03\x00air")?;
    /// let mut keys = KeyTable::new();
    /// let document = Document::check_with_list(b"\x46\x4A\x01\x70\x04a\x02\xAB\x00", list, &mut keys)?;
    /// let member = document.member(document.root(), 0)?;
    /// let key = document.read_key(member.key)?;
    /// assert_eq!((key.text, key.lender, key.value), (&b"a"[..], Lender::Document, member.value));
    /// let member = document.member(document.root(), 1)?;
    /// let key = document.read_key(member.key)?;
    /// assert_eq!((key.text, key.lender, key.value), (&b"air"[..], Lender::KeyList, member.value));
    /// # Ok::<(), czubrotek::Refusal>(())
    /// ```
    pub fn read_key(&self, at: KeyOffset) -> Result<Key<'a>, Refusal> {
        let (doc, list, keys, count) = self.lent();
        let [lender, place, len, value] =
            ask(|out| sys::fj_key(doc, list, keys, count, at.0, out))?;
        let (lender, bytes) = match lender {
            0 => (Lender::Document, doc),
            // 1: the library's contract leaves no other
            _ => (Lender::KeyList, list),
        };
        Ok(Key {
            text: part(bytes, range(place, len), at.0)?,
            lender,
            place: place as usize,
            value: ValueOffset(value),
        })
    }

    /// What a call is lent: the bytes of the document and of the key list, the key table and the number of its pairs.
    fn lent(&self) -> (&'a [u8], &'a [u8], &'a [u32], u64) {
        (self.bytes, self.list.bytes, self.words, self.count)
    }
}

/// A part of lent bytes. The library answers with none that lies outside; one that did would be 35 at the cursor.
fn part(bytes: &[u8], range: Range<usize>, cursor: u64) -> Result<&[u8], Refusal> {
    let outside = Refusal {
        number: 35,
        place: cursor,
    };
    bytes.get(range).ok_or(outside)
}
