//! Trees, and how they are written as documents of both formats. For tests and benchmarks: it writes what it is given, and
//! leaves the limits of a format to the readers.

pub mod binary_json;
pub mod fractured_json;

pub enum Tree {
    Null,
    Bool(bool),
    /// A binary64, by its bits.
    Number(u64),
    Text(Vec<u8>),
    Array(Vec<Tree>),
    /// Members; for BinaryJson their keys ascend.
    Object(Vec<(Vec<u8>, Tree)>),
}

impl Tree {
    pub fn number(x: f64) -> Tree {
        Tree::Number(x.to_bits())
    }

    pub fn text(text: &str) -> Tree {
        Tree::Text(text.as_bytes().to_vec())
    }

    pub fn is_container(&self) -> bool {
        matches!(self, Tree::Array(_) | Tree::Object(_))
    }

    /// The values of a container, in order.
    pub fn children(&self) -> Box<dyn Iterator<Item = &Tree> + '_> {
        match self {
            Tree::Array(items) => Box::new(items.iter()),
            Tree::Object(members) => Box::new(members.iter().map(|(_, value)| value)),
            _ => Box::new(std::iter::empty()),
        }
    }
}
