//! The tree of a Fractured JSON document as values.

use super::{Document, Key, KeyOffset, Kind, Number, ValueOffset};
use crate::Refusal;
use crate::container::container;
use std::iter::FusedIterator;

/// A value of the tree.
#[derive(Debug, Clone, Copy)]
pub enum Value<'a> {
    /// null.
    Null,
    /// false or true.
    Bool(bool),
    /// A number.
    Number(Number),
    /// A string's text, which need not be UTF-8.
    String(&'a [u8]),
    /// An array.
    Array(Array<'a>),
    /// An object.
    Object(Object<'a>),
}

impl<'a> Document<'a> {
    /// The value of the whole document.
    pub fn value(&self) -> Result<Value<'a>, Refusal> {
        self.value_at(self.root())
    }

    /// The value at an offset.
    pub fn value_at(&self, at: ValueOffset) -> Result<Value<'a>, Refusal> {
        let (document, offset) = (*self, at);
        Ok(match self.kind(at)? {
            Kind::Null => Value::Null,
            Kind::False => Value::Bool(false),
            Kind::True => Value::Bool(true),
            Kind::Number => Value::Number(self.number(at)?),
            Kind::String(_) => Value::String(self.string(at)?),
            Kind::Array(len) => Value::Array(Array {
                document,
                offset,
                len,
            }),
            Kind::Object(len) => Value::Object(Object {
                document,
                offset,
                len,
            }),
        })
    }
}

container! {
    /// An array of a document.
    ///
    /// ```
    /// use czubrotek::fractured_json::{Document, Number, Value};
    ///
    /// // [-32,31]
    /// let document = Document::check(b"\x46\x4A\x01\xA0\xBE\xFD", &mut [])?;
    /// let Value::Array(array) = document.value()? else { panic!("no array") };
    /// assert_eq!(array.len(), 2);
    /// assert!(matches!(array.element(1)?, Value::Number(Number::Int(31))));
    /// assert_eq!(array.element(2).unwrap_err().number, 22);
    /// assert_eq!(array.iter().count(), 2);
    /// # Ok::<(), czubrotek::Refusal>(())
    /// ```
    pub struct Array<'a> {
        /// Its type byte.
        offset: ValueOffset,
        /// How many elements it says it has; a checked one has them.
        len: usize,
    }

    impl IntoIterator<Item = Result<Value<'a>, Refusal>, IntoIter = Elements<'a>>;
}

impl<'a> Array<'a> {
    /// Element `i`; 22 at or past the length.
    pub fn element(&self, i: usize) -> Result<Value<'a>, Refusal> {
        self.document
            .value_at(self.document.element(self.offset, i)?)
    }

    /// Its elements in order.
    pub fn iter(&self) -> Elements<'a> {
        Elements {
            array: *self,
            before: None,
            left: self.len,
        }
    }
}

container! {
    /// An object of a document.
    pub struct Object<'a> {
        /// Its type byte.
        offset: ValueOffset,
        /// How many members it says it has; a checked one has them.
        len: usize,
    }

    impl IntoIterator<Item = Result<(&'a [u8], Value<'a>), Refusal>, IntoIter = Members<'a>>;
}

impl<'a> Object<'a> {
    /// Key and value of member `j`; 22 at or past the length.
    pub fn member(&self, j: usize) -> Result<(&'a [u8], Value<'a>), Refusal> {
        let member = self.document.member(self.offset, j)?;
        let key = self.document.read_key(member.key)?;
        Ok((key.text, self.document.value_at(member.value)?))
    }

    /// The value of the first member with a key.
    ///
    /// ```
    /// use czubrotek::fractured_json::{Document, KeyTable, Value};
    ///
    /// // {"a":true}
    /// let mut keys = KeyTable::new();
    /// let document = Document::check(b"\x46\x4A\x01\x6F\x04a\x02", &mut keys)?;
    /// let Value::Object(object) = document.value()? else { panic!("no object") };
    /// assert!(matches!(object.get(b"a")?, Some(Value::Bool(true))));
    /// assert!(object.get(b"b")?.is_none());
    /// # Ok::<(), czubrotek::Refusal>(())
    /// ```
    pub fn get(&self, key: &[u8]) -> Result<Option<Value<'a>>, Refusal> {
        let found = self.document.first_member(self.offset, key)?;
        found.map(|value| self.document.value_at(value)).transpose()
    }

    /// Its members in document order; a key may come twice.
    pub fn iter(&self) -> Members<'a> {
        Members {
            object: *self,
            before: None,
            left: self.len,
        }
    }
}

/// The elements of an array. Each starts where the one before ends, so one that is refused is the last.
#[derive(Debug, Clone)]
pub struct Elements<'a> {
    array: Array<'a>,
    before: Option<ValueOffset>,
    left: usize,
}

impl<'a> Elements<'a> {
    fn step(&mut self) -> Result<Value<'a>, Refusal> {
        let Array {
            document, offset, ..
        } = self.array;
        let element = match self.before {
            None => document.element(offset, 0)?,
            Some(before) => ValueOffset(document.end(before)?),
        };
        self.before = Some(element);
        document.value_at(element)
    }
}

/// The members of an object. Each starts where the one before ends, so one that is refused is the last.
#[derive(Debug, Clone)]
pub struct Members<'a> {
    object: Object<'a>,
    before: Option<ValueOffset>,
    left: usize,
}

impl<'a> Members<'a> {
    fn step(&mut self) -> Result<(&'a [u8], Value<'a>), Refusal> {
        let Object {
            document, offset, ..
        } = self.object;
        let key = match self.before {
            None => document.member(offset, 0)?.key,
            Some(before) => KeyOffset(document.end(before)?),
        };
        let Key { text, value, .. } = document.read_key(key)?;
        self.before = Some(value);
        Ok((text, document.value_at(value)?))
    }
}

impl<'a> Iterator for Elements<'a> {
    type Item = Result<Value<'a>, Refusal>;

    fn next(&mut self) -> Option<Self::Item> {
        self.left = self.left.checked_sub(1)?;
        Some(self.step().inspect_err(|_| self.left = 0))
    }

    fn size_hint(&self) -> (usize, Option<usize>) {
        (self.left.min(1), Some(self.left))
    }
}

impl<'a> Iterator for Members<'a> {
    type Item = Result<(&'a [u8], Value<'a>), Refusal>;

    fn next(&mut self) -> Option<Self::Item> {
        self.left = self.left.checked_sub(1)?;
        Some(self.step().inspect_err(|_| self.left = 0))
    }

    fn size_hint(&self) -> (usize, Option<usize>) {
        (self.left.min(1), Some(self.left))
    }
}

impl FusedIterator for Elements<'_> {}
impl FusedIterator for Members<'_> {}
