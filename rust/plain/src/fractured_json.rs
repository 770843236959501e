//! The Fractured JSON reader: the checks of a key list and of a whole document, and the questions
//! asked of a value or a key. Check and questions take the key list beside the document.

use std::collections::HashSet;

use crate::{Answer, MAX_DEPTH, MAX_LENGTH, Refusal};

/// Where the root value stands, after 46 4A and the config byte.
const ROOT: usize = 3;

/// Where the first name's length stands in a key list, after the config byte and the count.
const FIRST_NAME: usize = 3;

/// The most keys a key table is used for.
const MAX_KEYS: usize = 4_096;

/// What the check gives: its verdict and the number of pairs it wrote into the key table.
#[derive(Debug, Clone, Copy, PartialEq, Eq)]
pub struct Checked {
    pub verdict: Answer<()>,
    pub count: u64,
}

/// Which of the lent bytes hold a key's text.
#[derive(Debug, Clone, Copy, PartialEq, Eq)]
pub enum Lender {
    Document,
    KeyList,
}

/// A key that has been read.
#[derive(Debug, Clone, Copy, PartialEq, Eq)]
pub struct Key<'d> {
    pub lender: Lender,
    /// Where the text starts in its lender.
    pub place: usize,
    pub text: &'d [u8],
    /// Where the key ends, which is where its value starts.
    pub end: usize,
}

/// Checks a key list by rules 51 to 54.
pub fn check_list(list: &[u8]) -> Answer<()> {
    read_list(list)?;
    Ok(())
}

/// Checks the key list and then the whole document by rules 31 to 43. Each immediate key passed has
/// its pair, start and length, in the key table afterwards, refused or not; all other words stay.
pub fn check(doc: &[u8], list: &[u8], keys: &mut [u32]) -> Checked {
    let names = match read_list(list) {
        Ok(names) => names,
        Err(refusal) => {
            return Checked {
                verdict: Err(refusal),
                count: 0,
            };
        }
    };
    let mut walker = Walker {
        doc,
        names,
        keys: KeyRecorder {
            doc,
            table: keys,
            count: 0,
            met: HashSet::new(),
        },
    };
    let verdict = check_header(doc)
        .and_then(|()| walker.value(ROOT, 1))
        .and_then(|end| {
            if end < doc.len() {
                return Err(Refusal::new(42, end));
            }
            Ok(())
        });
    Checked {
        verdict,
        count: walker.keys.count as u64,
    }
}

/// Where the value at `at` ends.
pub fn end(doc: &[u8], list: &[u8], keys: &[u32], count: u64, at: u64) -> Answer<u64> {
    let (names, at) = open(doc, list, at)?;
    let end = Walker::asking(doc, names, keys, count).value(at, 1)?;
    Ok(end as u64)
}

/// Kind of the value at `at` (0 null, 1 false, 2 true, 3 number, 4 string, 5 object, 6 array), with
/// the length of a string or container.
pub fn kind(doc: &[u8], list: &[u8], at: u64) -> Answer<(u64, Option<u64>)> {
    let (_, at) = open(doc, list, at)?;
    let (kind, length) = match read_type(doc, at)? {
        Type::Null => return Ok((0, None)),
        Type::False => return Ok((1, None)),
        Type::True => return Ok((2, None)),
        Type::Number(_) => return Ok((3, None)),
        Type::String(length) => (4, length),
        Type::Object(length) => (5, length),
        Type::Array(length) => (6, length),
    };
    let (length, _) = read_length(doc, at, length)?;
    Ok((kind, Some(u64::from(length))))
}

/// The number at `at`: its type byte and 64 bits.
pub fn number(doc: &[u8], list: &[u8], at: u64) -> Answer<(u8, u64)> {
    let (_, at) = open(doc, list, at)?;
    let Type::Number(byte) = read_type(doc, at)? else {
        return Err(Refusal::new(21, at));
    };
    let (bits, _) = read_number(doc, at, byte)?;
    Ok((byte, bits))
}

/// Place and length of the text of the string at `at`.
pub fn string(doc: &[u8], list: &[u8], at: u64) -> Answer<(u64, u64)> {
    let (_, at) = open(doc, list, at)?;
    let Type::String(length) = read_type(doc, at)? else {
        return Err(Refusal::new(21, at));
    };
    let (length, start) = read_length(doc, at, length)?;
    let text = text_at(doc, start, length as usize).ok_or(Refusal::new(35, at))?;
    Ok((start as u64, text.len() as u64))
}

/// Place of element `i` of the array at `at`.
pub fn element(doc: &[u8], list: &[u8], keys: &[u32], count: u64, at: u64, i: u64) -> Answer<u64> {
    let (names, at) = open(doc, list, at)?;
    let Type::Array(length) = read_type(doc, at)? else {
        return Err(Refusal::new(21, at));
    };
    let (length, mut next) = read_length(doc, at, length)?;
    if i >= u64::from(length) {
        return Err(Refusal::new(22, at));
    }
    let mut walker = Walker::asking(doc, names, keys, count);
    for _ in 0..i {
        next = walker.value(next, 2)?;
    }
    Ok(next as u64)
}

/// Places of the key byte and of the value of member `j` of the object at `at`.
pub fn member(
    doc: &[u8],
    list: &[u8],
    keys: &[u32],
    count: u64,
    at: u64,
    j: u64,
) -> Answer<(u64, u64)> {
    let (names, at) = open(doc, list, at)?;
    let (length, mut next) = read_object(doc, at)?;
    if j >= u64::from(length) {
        return Err(Refusal::new(22, at));
    }
    let mut walker = Walker::asking(doc, names, keys, count);
    for _ in 0..j {
        let key = walker.key(next)?;
        next = walker.value(key.end, 2)?;
    }
    let key = walker.key(next)?;
    Ok((next as u64, key.end as u64))
}

/// Place of the value of the first member with this key in the object at `at`, or absent. The values
/// between two keys are walked; nothing is read after the last key.
pub fn first_member(
    doc: &[u8],
    list: &[u8],
    keys: &[u32],
    count: u64,
    at: u64,
    key: &[u8],
) -> Answer<Option<u64>> {
    let (names, at) = open(doc, list, at)?;
    let (length, mut next) = read_object(doc, at)?;
    let mut walker = Walker::asking(doc, names, keys, count);
    for j in 0..length {
        let met = walker.key(next)?;
        if met.text == key {
            return Ok(Some(met.end as u64));
        }
        if j + 1 < length {
            next = walker.value(met.end, 2)?;
        }
    }
    Ok(None)
}

/// The key whose key byte stands at `at`.
pub fn key<'d>(
    doc: &'d [u8],
    list: &'d [u8],
    keys: &[u32],
    count: u64,
    at: u64,
) -> Answer<Key<'d>> {
    let (names, at) = open(doc, list, at)?;
    Walker::asking(doc, names, keys, count).key(at)
}

/// A text and where it starts in the bytes that hold it.
struct Text<'d> {
    place: usize,
    bytes: &'d [u8],
}

/// The names of a key list. Order: 52 and 51 for the config byte, 52 for the count, then for each name
/// 52 for its length and its text and 54, and 53 last.
fn read_list(list: &[u8]) -> Answer<Vec<Text<'_>>> {
    let config = *list.first().ok_or(Refusal::new(52, 0))?;
    if config != 0 {
        return Err(Refusal::new(51, 0));
    }
    let count = read_u16(list, 1).ok_or(Refusal::new(52, 1))?;
    // Each name takes two bytes or more, so that a count alone reserves little.
    let capacity = count.min(list.len() / 2);
    let mut names: Vec<Text> = Vec::with_capacity(capacity);
    // Few names are compared with each other, more go through a set.
    let mut met = (count > 16).then(|| HashSet::with_capacity(capacity));
    let mut next = FIRST_NAME;
    for _ in 0..count {
        let length = read_u16(list, next).ok_or(Refusal::new(52, next))?;
        let place = next + 2;
        let bytes = text_at(list, place, length).ok_or(Refusal::new(52, place))?;
        let repeated = match &mut met {
            Some(met) => !met.insert(bytes),
            None => names.iter().any(|name| name.bytes == bytes),
        };
        if repeated {
            return Err(Refusal::new(54, next));
        }
        names.push(Text { place, bytes });
        next = place + length;
    }
    if next < list.len() {
        return Err(Refusal::new(53, next));
    }
    Ok(names)
}

/// The 16-bit number at a place of a key list, if it is inside.
fn read_u16(list: &[u8], at: usize) -> Option<usize> {
    let bytes = list.get(at..)?.first_chunk()?;
    Some(usize::from(u16::from_le_bytes(*bytes)))
}

/// Rules 31 to 34.
fn check_header(doc: &[u8]) -> Answer<()> {
    let length = doc.len();
    if length < 4 {
        return Err(Refusal::new(31, length));
    }
    if length > MAX_LENGTH {
        return Err(Refusal::new(32, length));
    }
    if !doc.starts_with(b"FJ") {
        return Err(Refusal::new(33, 0));
    }
    if doc[2] != 0x01 {
        return Err(Refusal::new(34, 2));
    }
    Ok(())
}

/// What every question starts with: the key list's rules, 31 to 34, then 20 for a cursor in the
/// header. Answers the names of the key list and the cursor as a place.
fn open<'d>(doc: &[u8], list: &'d [u8], cursor: u64) -> Answer<(Vec<Text<'d>>, usize)> {
    let names = read_list(list)?;
    check_header(doc)?;
    if cursor < ROOT as u64 {
        return Err(Refusal {
            number: 20,
            place: cursor,
        });
    }
    let at = usize::try_from(cursor).map_err(|_| Refusal {
        number: 35,
        place: cursor,
    })?;
    Ok((names, at))
}

/// How many members the object at `at` has and where the first one's key stands, 21 unless it is one.
fn read_object(doc: &[u8], at: usize) -> Answer<(u32, usize)> {
    let Type::Object(length) = read_type(doc, at)? else {
        return Err(Refusal::new(21, at));
    };
    read_length(doc, at, length)
}

/// What a type byte says.
#[derive(Clone, Copy)]
enum Type {
    Null,
    False,
    True,
    /// With the type byte itself.
    Number(u8),
    String(Length),
    Object(Length),
    Array(Length),
}

/// Where the length of a string or container is found.
#[derive(Clone, Copy)]
enum Length {
    /// In the type byte.
    Tiny(u8),
    Bits8,
    Bits16,
    Bits32,
}

/// The type byte at a place: 35, 36.
fn read_type(doc: &[u8], at: usize) -> Answer<Type> {
    let byte = *doc.get(at).ok_or(Refusal::new(35, at))?;
    Ok(match byte {
        0x00 => Type::Null,
        0x01 => Type::False,
        0x02 => Type::True,
        0x03..=0x0C => Type::Number(byte),
        0x0D => Type::String(Length::Bits8),
        0x0E => Type::String(Length::Bits16),
        0x0F => Type::String(Length::Bits32),
        0x10 => Type::Object(Length::Bits8),
        0x11 => Type::Object(Length::Bits16),
        0x12 => Type::Object(Length::Bits32),
        0x13 => Type::Array(Length::Bits8),
        0x14 => Type::Array(Length::Bits16),
        0x15 => Type::Array(Length::Bits32),
        0x16..=0x6D => Type::String(Length::Tiny(byte - 0x16)),
        0x6E..=0x9D => Type::Object(Length::Tiny(byte - 0x6E)),
        0x9E..=0xBD => Type::Array(Length::Tiny(byte - 0x9E)),
        0xBE..=0xFD => Type::Number(byte),
        0xFE | 0xFF => return Err(Refusal::new(36, at)),
    })
}

/// The `W` bytes after the type byte at `at`: 35 if they run out.
fn payload<const W: usize>(doc: &[u8], at: usize) -> Answer<[u8; W]> {
    doc.get(at + 1..)
        .and_then(|rest| rest.first_chunk())
        .copied()
        .ok_or(Refusal::new(35, at))
}

/// The length of the string or container at `at`, and where its text or entries start.
fn read_length(doc: &[u8], at: usize, length: Length) -> Answer<(u32, usize)> {
    Ok(match length {
        Length::Tiny(length) => (u32::from(length), at + 1),
        Length::Bits8 => (u32::from(u8::from_le_bytes(payload(doc, at)?)), at + 2),
        Length::Bits16 => (u32::from(u16::from_le_bytes(payload(doc, at)?)), at + 3),
        Length::Bits32 => (u32::from_le_bytes(payload(doc, at)?), at + 5),
    })
}

/// The 64 bits of the number at `at`, signed and tiny ints extended by sign and all others by zeros,
/// and where it ends: 35, 43.
fn read_number(doc: &[u8], at: usize, byte: u8) -> Answer<(u64, usize)> {
    Ok(match byte {
        0x03 => (i8::from_le_bytes(payload(doc, at)?) as u64, at + 2),
        0x04 => (u8::from_le_bytes(payload(doc, at)?).into(), at + 2),
        0x05 => (i16::from_le_bytes(payload(doc, at)?) as u64, at + 3),
        0x06 => (u16::from_le_bytes(payload(doc, at)?).into(), at + 3),
        0x07 => (i32::from_le_bytes(payload(doc, at)?) as u64, at + 5),
        0x08 => (u32::from_le_bytes(payload(doc, at)?).into(), at + 5),
        0x09 | 0x0A => (u64::from_le_bytes(payload(doc, at)?), at + 9),
        0x0B => {
            let float = f32::from_le_bytes(payload(doc, at)?);
            if !float.is_finite() {
                return Err(Refusal::new(43, at));
            }
            (float.to_bits().into(), at + 5)
        }
        0x0C => {
            let float = f64::from_le_bytes(payload(doc, at)?);
            if !float.is_finite() {
                return Err(Refusal::new(43, at));
            }
            (float.to_bits(), at + 9)
        }
        // A tiny int, BE being -32.
        _ => ((i64::from(byte) - 222) as u64, at + 1),
    })
}

/// The part of a document or key list with this start and length, if it is inside.
fn text_at(bytes: &[u8], start: usize, length: usize) -> Option<&[u8]> {
    bytes.get(start..)?.get(..length)
}

/// The number after a key byte at `key`, and where it ends: 35 at the key byte, 37 at a third byte
/// over 3.
fn read_v_uint16(doc: &[u8], key: usize) -> Answer<(usize, usize)> {
    let byte = |place: usize| match doc.get(place) {
        Some(&byte) => Ok(usize::from(byte)),
        None => Err(Refusal::new(35, key)),
    };
    let first = byte(key + 1)?;
    if first < 0x80 {
        return Ok((first, key + 2));
    }
    let second = byte(key + 2)?;
    if second < 0x80 {
        return Ok((first & 0x7F | second << 7, key + 3));
    }
    let third = byte(key + 3)?;
    if third > 3 {
        return Err(Refusal::new(37, key + 3));
    }
    Ok((first & 0x7F | (second & 0x7F) << 7 | third << 14, key + 4))
}

/// How many keys a key table has room for.
fn room(table: &[u32]) -> usize {
    (table.len() / 2).min(MAX_KEYS)
}

/// What keys mean: the check records immediate keys, the questions only go by a table handed in.
trait Keys<'d> {
    /// Passes an immediate key, or refuses it with this number.
    fn immediate(&mut self, start: usize, text: &'d [u8]) -> Result<(), u32>;

    /// The text of the key with this index, if there is one.
    fn back_reference(&self, index: usize) -> Option<Text<'d>>;
}

/// The keys of the check.
struct KeyRecorder<'d, 't> {
    doc: &'d [u8],
    table: &'t mut [u32],
    /// Immediate keys passed.
    count: usize,
    /// Their texts.
    met: HashSet<&'d [u8]>,
}

impl<'d> Keys<'d> for KeyRecorder<'d, '_> {
    /// 39, then 40, then the pair is written.
    fn immediate(&mut self, start: usize, text: &'d [u8]) -> Result<(), u32> {
        if !self.met.insert(text) {
            return Err(39);
        }
        if self.count >= room(self.table) {
            return Err(40);
        }
        self.table[2 * self.count] = start as u32;
        self.table[2 * self.count + 1] = text.len() as u32;
        self.count += 1;
        Ok(())
    }

    fn back_reference(&self, index: usize) -> Option<Text<'d>> {
        if index >= self.count {
            return None;
        }
        pair(self.doc, self.table, index)
    }
}

/// The keys of a question: the table and count handed in.
struct KeyTable<'d, 't> {
    doc: &'d [u8],
    table: &'t [u32],
    count: u64,
}

impl<'d> Keys<'d> for KeyTable<'d, '_> {
    /// 39 and 40 belong to the check alone.
    fn immediate(&mut self, _start: usize, _text: &'d [u8]) -> Result<(), u32> {
        Ok(())
    }

    fn back_reference(&self, index: usize) -> Option<Text<'d>> {
        if index as u64 >= self.count || self.count > room(self.table) as u64 {
            return None;
        }
        pair(self.doc, self.table, index)
    }
}

/// The text that a pair of the key table names, if it is inside the document.
fn pair<'d>(doc: &'d [u8], table: &[u32], index: usize) -> Option<Text<'d>> {
    let place = *table.get(2 * index)? as usize;
    let length = *table.get(2 * index + 1)?;
    let bytes = text_at(doc, place, length as usize)?;
    Some(Text { place, bytes })
}

/// Walks values and keys in reading order.
struct Walker<'d, K> {
    doc: &'d [u8],
    /// The names of the key list.
    names: Vec<Text<'d>>,
    keys: K,
}

impl<'d, 't> Walker<'d, KeyTable<'d, 't>> {
    /// A walker for a question.
    fn asking(doc: &'d [u8], names: Vec<Text<'d>>, table: &'t [u32], count: u64) -> Self {
        Walker {
            doc,
            names,
            keys: KeyTable { doc, table, count },
        }
    }
}

impl<'d, K: Keys<'d>> Walker<'d, K> {
    /// Walks the whole value at `at` and answers where it ends; `depth` is the number it has in the
    /// nesting if it is a container. Order: 35, 36, 35 for length or payload, 43, 41, contents.
    fn value(&mut self, at: usize, depth: u32) -> Answer<usize> {
        match read_type(self.doc, at)? {
            Type::Null | Type::False | Type::True => Ok(at + 1),
            Type::Number(byte) => {
                let (_, end) = read_number(self.doc, at, byte)?;
                Ok(end)
            }
            Type::String(length) => {
                let (length, start) = read_length(self.doc, at, length)?;
                let text = text_at(self.doc, start, length as usize).ok_or(Refusal::new(35, at))?;
                Ok(start + text.len())
            }
            Type::Object(length) => {
                let (length, mut next) = read_length(self.doc, at, length)?;
                if depth > MAX_DEPTH {
                    return Err(Refusal::new(41, at));
                }
                for _ in 0..length {
                    let key = self.key(next)?;
                    next = self.value(key.end, depth + 1)?;
                }
                Ok(next)
            }
            Type::Array(length) => {
                let (length, mut next) = read_length(self.doc, at, length)?;
                if depth > MAX_DEPTH {
                    return Err(Refusal::new(41, at));
                }
                for _ in 0..length {
                    next = self.value(next, depth + 1)?;
                }
                Ok(next)
            }
        }
    }

    /// Reads the key at `at`. Order: 35, 36, the v_uint16 with 35 and 37, then the text's 35, 39 and
    /// 40 of an immediate key, or 38.
    fn key(&mut self, at: usize) -> Answer<Key<'d>> {
        let byte = *self.doc.get(at).ok_or(Refusal::new(35, at))?;
        match byte {
            0x00 => {
                let (length, start) = read_v_uint16(self.doc, at)?;
                self.immediate(at, start, length)
            }
            0x01 => {
                let (index, end) = read_v_uint16(self.doc, at)?;
                self.back_reference(at, index, end)
            }
            0x02 => {
                let (index, end) = read_v_uint16(self.doc, at)?;
                self.global_index(at, index, end)
            }
            0x03..=0x56 => self.immediate(at, at + 1, usize::from(byte - 0x03)),
            0x57..=0xAA => self.back_reference(at, usize::from(byte - 0x57), at + 1),
            0xAB..=0xFE => self.global_index(at, usize::from(byte - 0xAB), at + 1),
            0xFF => Err(Refusal::new(36, at)),
        }
    }

    fn immediate(&mut self, at: usize, start: usize, length: usize) -> Answer<Key<'d>> {
        let text = text_at(self.doc, start, length).ok_or(Refusal::new(35, at))?;
        self.keys
            .immediate(start, text)
            .map_err(|number| Refusal::new(number, at))?;
        Ok(Key {
            lender: Lender::Document,
            place: start,
            text,
            end: start + length,
        })
    }

    fn back_reference(&self, at: usize, index: usize, end: usize) -> Answer<Key<'d>> {
        let text = self
            .keys
            .back_reference(index)
            .ok_or(Refusal::new(38, at))?;
        Ok(Key {
            lender: Lender::Document,
            place: text.place,
            text: text.bytes,
            end,
        })
    }

    fn global_index(&self, at: usize, index: usize, end: usize) -> Answer<Key<'d>> {
        let name = self.names.get(index).ok_or(Refusal::new(38, at))?;
        Ok(Key {
            lender: Lender::KeyList,
            place: name.place,
            text: name.bytes,
            end,
        })
    }
}
