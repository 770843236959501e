//! What is timed and counted: a question, asked of both readers with the same bytes.

use crate::asked::{self, Asked};
use differential::compare::number;
use differential::exports::timed;
use std::hint::black_box;
use std::io::{self, Read, Write};

pub type Call<'a> = Box<dyn FnMut() + 'a>;

/// Where the root Meta of a BinaryJson document stands.
pub const BINARY_ROOT: u64 = 4;

#[derive(Clone, Copy, PartialEq)]
pub enum Question {
    BinaryCheck,
    /// The check of a document in which two containers overlap: it must be refused with 14.
    BinaryOverlap,
    FracturedCheck,
    ListCheck,
    QuickLookup,
    PlainScan,
    /// One that is asked at places.
    Asked(Asked),
}

impl Question {
    /// All of them, in the order of their numbers.
    fn all() -> impl Iterator<Item = Question> {
        [
            Question::BinaryCheck,
            Question::BinaryOverlap,
            Question::FracturedCheck,
            Question::ListCheck,
            Question::QuickLookup,
            Question::PlainScan,
        ]
        .into_iter()
        .chain(asked::ALL.iter().copied().map(Question::Asked))
    }

    fn number(self) -> u8 {
        let before = Question::all().take_while(|q| *q != self);
        before.count() as u8
    }

    fn numbered(number: u8) -> Option<Question> {
        Question::all().nth(number.into())
    }
}

/// Where a question is asked, and of which element, member or key.
pub type Place = (u64, u64);

pub struct Case {
    pub question: Question,
    /// The document, or the key list that is checked by itself.
    pub bytes: Vec<u8>,
    /// The key list beside a document of Fractured JSON, and then the keys that are looked up, in either format.
    pub beside: Vec<Vec<u8>>,
    /// Where a question is asked in turn.
    pub places: Vec<Place>,
}

impl Case {
    pub fn binary_check(doc: Vec<u8>) -> Case {
        Case {
            question: Question::BinaryCheck,
            bytes: doc,
            beside: vec![],
            places: vec![],
        }
    }

    pub fn binary_overlap(doc: Vec<u8>) -> Case {
        Case {
            question: Question::BinaryOverlap,
            ..Case::binary_check(doc)
        }
    }

    pub fn fractured_check(doc: Vec<u8>, list: Vec<u8>) -> Case {
        Case {
            question: Question::FracturedCheck,
            bytes: doc,
            beside: vec![list],
            places: vec![],
        }
    }

    pub fn list_check(list: Vec<u8>) -> Case {
        Case {
            question: Question::ListCheck,
            bytes: list,
            beside: vec![],
            places: vec![],
        }
    }

    /// One call of the proved reader, or a lookup of each key, or a question at each place. A check must accept, but
    /// for overlaps.
    pub fn proved(&self) -> Call<'_> {
        let bytes = &self.bytes[..];
        match self.question {
            Question::BinaryCheck => self.checked_by(timed::binary_json::check, 0),
            Question::BinaryOverlap => self.checked_by(timed::binary_json::check, 14),
            Question::FracturedCheck => {
                let (list, mut table) = (&self.beside[0][..], key_table());
                Box::new(move || {
                    let number =
                        timed::fractured_json::check(black_box(bytes), black_box(list), &mut table);
                    assert_eq!(number, 0);
                })
            }
            Question::ListCheck => {
                Box::new(move || assert_eq!(timed::fractured_json::check_list(black_box(bytes)), 0))
            }
            Question::QuickLookup => self.lookups(|doc, key| {
                black_box(timed::binary_json::quick_lookup(doc, BINARY_ROOT, key));
            }),
            Question::PlainScan => self.lookups(|doc, key| {
                black_box(timed::binary_json::plain_scan(doc, BINARY_ROOT, key));
            }),
            Question::Asked(asked) => asked.proved(self),
        }
    }

    /// The same of the plain reader.
    pub fn plain(&self) -> Call<'_> {
        let bytes = &self.bytes[..];
        match self.question {
            Question::BinaryCheck => self.checked_by(plain_check, 0),
            Question::BinaryOverlap => self.checked_by(plain_check, 14),
            Question::FracturedCheck => {
                let (list, mut table) = (&self.beside[0][..], key_table());
                Box::new(move || {
                    let checked =
                        plain::fractured_json::check(black_box(bytes), black_box(list), &mut table);
                    assert_eq!(black_box(checked).verdict, Ok(()));
                })
            }
            Question::ListCheck => Box::new(move || {
                assert_eq!(plain::fractured_json::check_list(black_box(bytes)), Ok(()));
            }),
            Question::QuickLookup => self.lookups(|doc, key| {
                let _ = black_box(plain::binary_json::quick_lookup(doc, BINARY_ROOT, key));
            }),
            Question::PlainScan => self.lookups(|doc, key| {
                let _ = black_box(plain::binary_json::plain_scan(doc, BINARY_ROOT, key));
            }),
            Question::Asked(asked) => asked.plain(self),
        }
    }

    /// A BinaryJson check whose verdict must have this number. Marks are lent, one for each word of the document.
    fn checked_by<'a>(
        &'a self,
        check: impl Fn(&[u8], &mut [u8]) -> u32 + 'a,
        number: u32,
    ) -> Call<'a> {
        let mut marks = vec![0; self.bytes.len() / 4];
        Box::new(move || assert_eq!(check(black_box(&self.bytes), &mut marks), number))
    }

    fn lookups(&self, look: fn(&[u8], &[u8])) -> Call<'_> {
        Box::new(move || {
            for key in &self.beside {
                look(black_box(&self.bytes), key);
            }
        })
    }

    /// Hands a case to another process, which reads it with `read`.
    pub fn write(&self, to: &mut impl Write) -> io::Result<()> {
        let [beside, places] = [self.beside.len(), self.places.len()].map(|n| n as u8);
        to.write_all(&[self.question.number(), beside, places])?;
        for part in [&self.bytes].into_iter().chain(&self.beside) {
            to.write_all(&(part.len() as u64).to_le_bytes())?;
            to.write_all(part)?;
        }
        for (at, index) in &self.places {
            to.write_all(&at.to_le_bytes())?;
            to.write_all(&index.to_le_bytes())?;
        }
        to.flush()
    }

    /// The next case, or an error at the end of them.
    pub fn read(from: &mut impl Read) -> io::Result<Case> {
        let mut head = [0; 3];
        from.read_exact(&mut head)?;
        let [question, beside, places] = head;
        Ok(Case {
            question: Question::numbered(question).ok_or(io::ErrorKind::InvalidData)?,
            bytes: part(from)?,
            beside: (0..beside).map(|_| part(from)).collect::<io::Result<_>>()?,
            places: (0..places)
                .map(|_| Ok((word(from)?, word(from)?)))
                .collect::<io::Result<_>>()?,
        })
    }
}

/// The number of the plain reader's verdict.
fn plain_check(doc: &[u8], marks: &mut [u8]) -> u32 {
    number(plain::binary_json::check(doc, marks)) as u32
}

fn word(from: &mut impl Read) -> io::Result<u64> {
    let mut bytes = [0; 8];
    from.read_exact(&mut bytes)?;
    Ok(u64::from_le_bytes(bytes))
}

fn part(from: &mut impl Read) -> io::Result<Vec<u8>> {
    let mut bytes = vec![0; word(from)? as usize];
    from.read_exact(&mut bytes)?;
    Ok(bytes)
}

/// A key table with the largest room.
pub fn key_table() -> Vec<u32> {
    vec![0; 8192]
}
