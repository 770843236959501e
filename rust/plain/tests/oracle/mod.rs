//! The BinaryJson check worked out slowly from the papers' words: with a list of what is still to be
//! walked instead of calls, and with a set of words instead of marks.

use std::collections::BTreeSet;

use plain::{Answer, Refusal};

const LONGEST: u64 = 16_777_216;

const DEEPEST: u64 = 64;

/// The verdict, and what the marks hold afterwards.
pub fn check(doc: &[u8], lent: &[u8]) -> (Answer<()>, Vec<u8>) {
    let areas = match Areas::read(doc) {
        Ok(areas) => areas,
        Err(refusal) => return (Err(refusal), lent.to_vec()),
    };
    let words = (areas.string_index - 4) / 4;
    if (lent.len() as u64) < words {
        return (refuse(15, areas.string_index), lent.to_vec());
    }
    let mut marked = BTreeSet::new();
    let verdict = areas.walk(&mut marked).and_then(|()| {
        let mut places = (0..words).map(|k| 4 + 4 * k);
        match places.find(|place| !marked.contains(place)) {
            Some(place) => refuse(13, place),
            None => Ok(()),
        }
    });
    let afterwards = (0..).zip(lent).map(|(k, &before)| {
        if k < words {
            u8::from(marked.contains(&(4 + 4 * k)))
        } else {
            before
        }
    });
    (verdict, afterwards.collect())
}

fn refuse<T>(number: u32, place: u64) -> Answer<T> {
    Err(Refusal { number, place })
}

/// What there is still to walk.
enum Step {
    Container { at: u64, depth: u64 },
    Entry { at: u64, parent: u64, depth: u64 },
}

/// A document that has passed 1 to 7.
struct Areas<'d> {
    doc: &'d [u8],
    string_index: u64,
    slots: BTreeSet<u64>,
    numbers: u64,
}

impl<'d> Areas<'d> {
    fn read(doc: &'d [u8]) -> Answer<Areas<'d>> {
        let length = doc.len() as u64;
        if length < 12 {
            return refuse(1, length);
        }
        if length > LONGEST {
            return refuse(2, length);
        }
        if word(doc, 0) % 32 != 1 {
            return refuse(3, 0);
        }
        let string_index = word(doc, 0) / 32;
        if string_index < 8 || !string_index.is_multiple_of(4) || string_index + 4 > length {
            return refuse(4, 0);
        }
        let texts = string_index + 4 + 4 * word(doc, string_index);
        if texts > length {
            return refuse(4, string_index);
        }
        let mut slots = BTreeSet::new();
        let mut contents: Vec<&[u8]> = Vec::new();
        let mut start = texts;
        for slot in (string_index + 4..texts).step_by(4) {
            let end = word(doc, slot) / 32;
            let bad = !word(doc, slot).is_multiple_of(32) || end <= start || end > length;
            if bad || doc[end as usize - 1] != 0 {
                return refuse(5, slot);
            }
            let content = &doc[start as usize..end as usize - 1];
            if contents.last().is_some_and(|before| *before >= content) {
                return refuse(6, slot);
            }
            contents.push(content);
            slots.insert(slot);
            start = end;
        }
        if !(length - start).is_multiple_of(8) {
            return refuse(7, start);
        }
        Ok(Areas {
            doc,
            string_index,
            slots,
            numbers: start,
        })
    }

    /// 12, 8, 14, 11, 9 and 10 from the root on; collects the places of the words marked.
    fn walk(&self, marked: &mut BTreeSet<u64>) -> Answer<()> {
        let mut steps = vec![Step::Container { at: 4, depth: 1 }];
        while let Some(step) = steps.pop() {
            match step {
                Step::Container { at, depth } => {
                    let entries = self.container(at, depth, marked)?;
                    let later = entries.into_iter().rev();
                    steps.extend(later.map(|entry| Step::Entry {
                        at: entry,
                        parent: at,
                        depth,
                    }));
                }
                Step::Entry { at, parent, depth } => {
                    if let Some(child) = self.entry(at, parent)? {
                        steps.push(Step::Container {
                            at: child,
                            depth: depth + 1,
                        });
                    }
                }
            }
        }
        Ok(())
    }

    /// Marks the container and tests its KeyEntries; answers the places of its Entries.
    fn container(&self, at: u64, depth: u64, marked: &mut BTreeSet<u64>) -> Answer<Vec<u64>> {
        if depth > DEEPEST {
            return refuse(12, at);
        }
        if at + 4 > self.string_index {
            return refuse(8, at);
        }
        let (kind, size) = (word(self.doc, at) % 32, word(self.doc, at) / 32);
        let entries_at = at + 4 + if kind == 1 { 4 * size } else { 0 };
        let end = entries_at + 4 * size;
        if kind > 2 || end > self.string_index || (kind == 2 && (at != 4 || size != 1)) {
            return refuse(8, at);
        }
        let body: BTreeSet<u64> = (at..end).step_by(4).collect();
        if !body.is_disjoint(marked) {
            return refuse(14, at);
        }
        marked.extend(body);
        let keys: Vec<u64> = (at + 4..entries_at).step_by(4).collect();
        for (j, &key) in keys.iter().enumerate() {
            let slot = word(self.doc, key);
            if !self.slots.contains(&slot) || (j > 0 && word(self.doc, keys[j - 1]) >= slot) {
                return refuse(11, key);
            }
        }
        Ok((entries_at..end).step_by(4).collect())
    }

    /// Tests an Entry; answers where the container that it names should stand.
    fn entry(&self, at: u64, parent: u64) -> Answer<Option<u64>> {
        let value = word(self.doc, at) / 32;
        match word(self.doc, at) % 32 {
            0..=2 => Ok(None),
            3 if self.slots.contains(&value) => Ok(None),
            4 => {
                let inside = value >= self.numbers && value + 8 <= self.doc.len() as u64;
                if !inside || !(value - self.numbers).is_multiple_of(8) {
                    return refuse(9, at);
                }
                // The exponent of a number that is not finite is all ones.
                if word(self.doc, value + 4) / (1 << 20) % (1 << 11) == (1 << 11) - 1 {
                    return refuse(10, at);
                }
                Ok(None)
            }
            5 if word(self.doc, parent) % 32 != 2 && value.is_multiple_of(4) && value > parent => {
                Ok(Some(value))
            }
            _ => refuse(9, at),
        }
    }
}

/// The word at a place, byte by byte.
fn word(doc: &[u8], place: u64) -> u64 {
    (0..4)
        .map(|i| u64::from(doc[place as usize + i]) << (8 * i))
        .sum()
}
