//! The tree of a BinaryJson document as values.

use super::{Document, Kind, Number, TreeOffset, Type};
use crate::Refusal;
use crate::container::container;
use std::iter::FusedIterator;
use std::ops::Range;

/// A value of the tree.
#[derive(Debug, Clone, Copy)]
pub enum Value<'a> {
    /// null.
    Null,
    /// false or true.
    Bool(bool),
    /// A number.
    Number(Number),
    /// A string's text, which need not be UTF-8.
    String(&'a [u8]),
    /// An array.
    Array(Array<'a>),
    /// An object.
    Object(Object<'a>),
}

impl<'a> Document<'a> {
    /// The value of the whole document. That of a top-level scalar is the scalar itself; a container under it, which no
    /// checked document has, is 21 at the Entry.
    ///
    /// ```
    /// use czubrotek::binary_json::{Document, Value};
    ///
    /// let bytes = b"\x81\x01\0\0\x22\0\0\0\x04\x02\0\0\0\0\0\0\0\0\0\0\0\0\xF0\x3F";
    /// let Value::Number(number) = Document::check(bytes)?.value()? else { panic!("no number") };
    /// assert_eq!(number.to_f64(), 1.0);
    /// # Ok::<(), czubrotek::Refusal>(())
    /// ```
    pub fn value(&self) -> Result<Value<'a>, Refusal> {
        let (Kind::Scalar, _) = self.kind_and_size(self.root())? else {
            return self.container_at(self.root());
        };
        let entry = self.element(self.root(), 0)?;
        match self.entry_type(entry)? {
            Type::Container => Err(Refusal {
                number: 21,
                place: entry.0,
            }),
            _ => self.value_at(entry),
        }
    }

    /// The value that an Entry stands for.
    pub fn value_at(&self, entry: TreeOffset) -> Result<Value<'a>, Refusal> {
        Ok(match self.entry_type(entry)? {
            Type::False => Value::Bool(false),
            Type::True => Value::Bool(true),
            Type::Null => Value::Null,
            Type::String => Value::String(self.string(entry)?),
            Type::Number => Value::Number(self.number(entry)?),
            Type::Container => self.container_at(self.container(entry)?)?,
        })
    }

    /// The array or object at a Meta. Kind 2 is neither, and is 21 at the Meta.
    pub fn container_at(&self, meta: TreeOffset) -> Result<Value<'a>, Refusal> {
        let document = *self;
        match self.kind_and_size(meta)? {
            (Kind::Array, len) => Ok(Value::Array(Array {
                document,
                offset: meta,
                len,
            })),
            (Kind::Object, len) => Ok(Value::Object(Object {
                document,
                offset: meta,
                len,
            })),
            (Kind::Scalar, _) => Err(Refusal {
                number: 21,
                place: meta.0,
            }),
        }
    }
}

container! {
    /// An array of a document.
    ///
    /// ```
    /// use czubrotek::binary_json::{Document, Value};
    ///
    /// // [null,false]
    /// let bytes = b"\x01\x02\0\0\x40\0\0\0\x02\0\0\0\0\0\0\0\0\0\0\0";
    /// let Value::Array(array) = Document::check(bytes)?.value()? else { panic!("no array") };
    /// assert_eq!(array.len(), 2);
    /// assert!(matches!(array.element(0)?, Value::Null));
    /// assert!(matches!(array.iter().next_back(), Some(Ok(Value::Bool(false)))));
    /// assert_eq!(array.element(2).unwrap_err().number, 22);
    /// # Ok::<(), czubrotek::Refusal>(())
    /// ```
    pub struct Array<'a> {
        /// Its Meta.
        offset: TreeOffset,
        /// How many elements it has.
        len: usize,
    }

    impl IntoIterator<Item = Result<Value<'a>, Refusal>, IntoIter = Elements<'a>>;
}

impl<'a> Array<'a> {
    /// Element `i`; 22 at or past the length.
    pub fn element(&self, i: usize) -> Result<Value<'a>, Refusal> {
        self.document
            .value_at(self.document.element(self.offset, i)?)
    }

    /// Its elements in order.
    pub fn iter(&self) -> Elements<'a> {
        Elements {
            array: *self,
            left: 0..self.len,
        }
    }
}

container! {
    /// An object of a document.
    pub struct Object<'a> {
        /// Its Meta.
        offset: TreeOffset,
        /// How many members it has.
        len: usize,
    }

    impl IntoIterator<Item = Result<(&'a [u8], Value<'a>), Refusal>, IntoIter = Members<'a>>;
}

impl<'a> Object<'a> {
    /// Key and value of member `j`; 22 at or past the length.
    pub fn member(&self, j: usize) -> Result<(&'a [u8], Value<'a>), Refusal> {
        let member = self.document.member(self.offset, j)?;
        Ok((
            self.document.slot(member.slot)?,
            self.document.value_at(member.entry)?,
        ))
    }

    /// The value of the member with a key, by the quick lookup.
    ///
    /// ```
    /// use czubrotek::binary_json::{Document, Value};
    ///
    /// // {"a":true}
    /// let bytes = b"\x01\x02\0\0\x21\0\0\0\x14\0\0\0\x01\0\0\0\x01\0\0\0\x40\x03\0\0a\0";
    /// let Value::Object(object) = Document::check(bytes)?.value()? else { panic!("no object") };
    /// assert!(matches!(object.get(b"a")?, Some(Value::Bool(true))));
    /// assert!(object.get(b"b")?.is_none());
    /// # Ok::<(), czubrotek::Refusal>(())
    /// ```
    pub fn get(&self, key: &[u8]) -> Result<Option<Value<'a>>, Refusal> {
        let found = self.document.quick_lookup(self.offset, key)?;
        found
            .entry
            .map(|entry| self.document.value_at(entry))
            .transpose()
    }

    /// Its members in order, which is that of their keys.
    pub fn iter(&self) -> Members<'a> {
        Members {
            object: *self,
            left: 0..self.len,
        }
    }
}

/// The elements of an array, each asked for by itself: one that is refused does not end the others.
#[derive(Debug, Clone)]
pub struct Elements<'a> {
    array: Array<'a>,
    left: Range<usize>,
}

/// The members of an object, each asked for by itself: one that is refused does not end the others.
#[derive(Debug, Clone)]
pub struct Members<'a> {
    object: Object<'a>,
    left: Range<usize>,
}

impl<'a> Iterator for Elements<'a> {
    type Item = Result<Value<'a>, Refusal>;

    fn next(&mut self) -> Option<Self::Item> {
        self.left.next().map(|i| self.array.element(i))
    }

    fn size_hint(&self) -> (usize, Option<usize>) {
        self.left.size_hint()
    }
}

impl<'a> Iterator for Members<'a> {
    type Item = Result<(&'a [u8], Value<'a>), Refusal>;

    fn next(&mut self) -> Option<Self::Item> {
        self.left.next().map(|j| self.object.member(j))
    }

    fn size_hint(&self) -> (usize, Option<usize>) {
        self.left.size_hint()
    }
}

impl DoubleEndedIterator for Elements<'_> {
    fn next_back(&mut self) -> Option<Self::Item> {
        self.left.next_back().map(|i| self.array.element(i))
    }
}

impl DoubleEndedIterator for Members<'_> {
    fn next_back(&mut self) -> Option<Self::Item> {
        self.left.next_back().map(|j| self.object.member(j))
    }
}

impl ExactSizeIterator for Elements<'_> {}
impl ExactSizeIterator for Members<'_> {}
impl FusedIterator for Elements<'_> {}
impl FusedIterator for Members<'_> {}
