//! Why a document, a key list or a question was refused.

use std::error::Error;
use std::fmt;

/// A refusal: the number of the first rule that failed, and the place where it failed.
///
/// The place is an offset in the document, or a question's cursor; for 1, 2, 31 and 32 it is the document's length, for
/// 51 to 54 an offset in the key list. That of 8 and 12 may be past the document, where an Entry names such a place.
///
/// ```
/// use czubrotek::binary_json::Document;
///
/// // an array that names itself
/// let bytes = b"\x81\x01\0\0\x20\0\0\0\x85\0\0\0\0\0\0\0";
/// let refusal = Document::check(bytes).unwrap_err();
/// assert_eq!((refusal.number, refusal.place), (9, 8));
/// assert!(refusal.to_string().starts_with("refusal 9 at byte 8: "));
/// ```
#[derive(Debug, Clone, Copy, PartialEq, Eq, Hash)]
pub struct Refusal {
    /// The rule's number.
    pub number: u32,
    /// Where it failed.
    pub place: u64,
}

impl Refusal {
    /// What the number means. A number has one place in the tables of refusals, and may have several causes.
    pub fn meaning(&self) -> &'static str {
        match self.number {
            1 => "under 12 bytes",
            2 => "over 16,777,216 bytes",
            3 => "version not 1",
            4 => {
                "string index offset S under 8, no multiple of 4, or S+4 past the end, or slots pass the end"
            }
            5 => "slot with low bits, end not past start, end past document, or no closing zero",
            6 => "content not above the one before",
            7 => "number area no multiple of 8 bytes",
            8 => {
                "Meta or body passes the tree's end, kind over 2, or kind 2 below the root or of a size not 1"
            }
            9 => {
                "Entry type over 5, string not a slot, number not in step inside its area, \
                 container not at a multiple of 4 past its parent's Meta, or container under kind 2"
            }
            10 => "used number not finite",
            11 => "KeyEntry not a slot, or not above the one before",
            12 => "containers nested over 64",
            13 => "word of the tree in no container's body",
            14 => "container named twice, or a word of its body in another's",
            15 => "fewer marks lent than the tree has words",
            20 => {
                "a word, body, slot, text or number outside its area or out of step, or an FJ cursor under 3"
            }
            21 => "the wrong kind, a Meta kind over 2, or an Entry type over 5",
            22 => "index at or past the size",
            31 => "under 4 bytes",
            32 => "over 16,777,216 bytes",
            33 => "first bytes not 46 4A",
            34 => "config not 01",
            35 => "bytes of a value or key run out",
            36 => "reserved type or key byte",
            37 => "third v_uint16 byte over 3",
            38 => "key index not found",
            39 => "immediate text met before",
            40 => "no room in key table",
            41 => "nested over 64",
            42 => "bytes after the root",
            43 => "float not finite",
            51 => "key list: config not 0",
            52 => "key list: bytes run out",
            53 => "key list: bytes left over",
            54 => "key list: two equal names",
            _ => "no number of the tables",
        }
    }
}

impl fmt::Display for Refusal {
    fn fmt(&self, f: &mut fmt::Formatter<'_>) -> fmt::Result {
        write!(
            f,
            "refusal {} at byte {}: {}",
            self.number,
            self.place,
            self.meaning()
        )
    }
}

impl Error for Refusal {}

#[cfg(test)]
mod tests {
    use super::Refusal;

    #[test]
    fn each_number_has_its_sentence() {
        let sentences = [
            (1, "under 12 bytes"),
            (2, "over 16,777,216 bytes"),
            (3, "version not 1"),
            (
                4,
                "string index offset S under 8, no multiple of 4, or S+4 past the end, or slots pass the end",
            ),
            (
                5,
                "slot with low bits, end not past start, end past document, or no closing zero",
            ),
            (6, "content not above the one before"),
            (7, "number area no multiple of 8 bytes"),
            (
                8,
                "Meta or body passes the tree's end, kind over 2, or kind 2 below the root or of a size not 1",
            ),
            (
                9,
                "Entry type over 5, string not a slot, number not in step inside its area, \
                 container not at a multiple of 4 past its parent's Meta, or container under kind 2",
            ),
            (10, "used number not finite"),
            (11, "KeyEntry not a slot, or not above the one before"),
            (12, "containers nested over 64"),
            (13, "word of the tree in no container's body"),
            (
                14,
                "container named twice, or a word of its body in another's",
            ),
            (15, "fewer marks lent than the tree has words"),
            (
                20,
                "a word, body, slot, text or number outside its area or out of step, or an FJ cursor under 3",
            ),
            (
                21,
                "the wrong kind, a Meta kind over 2, or an Entry type over 5",
            ),
            (22, "index at or past the size"),
            (31, "under 4 bytes"),
            (32, "over 16,777,216 bytes"),
            (33, "first bytes not 46 4A"),
            (34, "config not 01"),
            (35, "bytes of a value or key run out"),
            (36, "reserved type or key byte"),
            (37, "third v_uint16 byte over 3"),
            (38, "key index not found"),
            (39, "immediate text met before"),
            (40, "no room in key table"),
            (41, "nested over 64"),
            (42, "bytes after the root"),
            (43, "float not finite"),
            (51, "key list: config not 0"),
            (52, "key list: bytes run out"),
            (53, "key list: bytes left over"),
            (54, "key list: two equal names"),
        ];
        for (number, sentence) in sentences {
            let refusal = Refusal { number, place: 8 };
            assert_eq!(
                refusal.to_string(),
                format!("refusal {number} at byte 8: {sentence}")
            );
        }
    }

    #[test]
    fn every_other_number_says_so() {
        for number in [0, 16, 19, 23, 30, 44, 50, 55, 255] {
            let refusal = Refusal { number, place: 8 };
            assert_eq!(refusal.meaning(), "no number of the tables");
        }
    }
}
