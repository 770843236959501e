//! The BinaryJson reader: the check of a whole document and the questions asked at a cursor.

use std::cmp::Ordering;
use std::ops::Range;

use crate::{Answer, MAX_DEPTH, MAX_LENGTH, Refusal};

/// Every word of the header, the tree and the slots has four bytes.
const WORD: usize = 4;

/// Where the root container stands.
const ROOT: usize = 4;

// Kinds of a Meta.
const ARRAY: u32 = 0;
const OBJECT: u32 = 1;
const SCALAR: u32 = 2;

// Types of an Entry; 0 false, 1 true and 2 null ignore the value field.
const NULL: u32 = 2;
const STRING: u32 = 3;
const NUMBER: u32 = 4;
const CONTAINER: u32 = 5;

/// Checks the whole document by rules 1 to 15. The caller lends one mark for each word of the tree,
/// mark k for the word at 4+4k; a quarter of the document's length is always enough. Once 7 and 15 are
/// passed, these marks are 1 for the words of the bodies marked and 0 for all others, refused or not;
/// before that, and beyond them, the marks stay.
pub fn check(doc: &[u8], marks: &mut [u8]) -> Answer<()> {
    let layout = Layout::read(doc)?;
    layout.check_strings()?;
    let string_index = layout.tree.len();
    let marks = marks
        .get_mut(..mark_of(string_index))
        .ok_or(Refusal::new(15, string_index))?;
    marks.fill(0);
    let mut walker = Walker {
        layout,
        marks,
        marked: 0,
    };
    walker.container(ROOT, 1)?;
    walker.whole_tree()
}

/// Kind (0 array, 1 object, 2 top-level scalar) and size of the container at `tree`.
pub fn kind_and_size(doc: &[u8], tree: u64) -> Answer<(u64, u64)> {
    let container = Layout::open(doc, tree)?.container(tree, &[ARRAY, OBJECT, SCALAR])?;
    Ok((u64::from(container.kind), container.size as u64))
}

/// Offset of the Entry of element `i`.
pub fn element(doc: &[u8], tree: u64, i: u64) -> Answer<u64> {
    let container = Layout::open(doc, tree)?.container(tree, &[ARRAY, SCALAR])?;
    let i = container.index(tree, i)?;
    Ok(container.entry(i))
}

/// Offsets of the slot of member `j`'s key and of its Entry.
pub fn member(doc: &[u8], tree: u64, j: u64) -> Answer<(u64, u64)> {
    let layout = Layout::open(doc, tree)?;
    let object = layout.container(tree, &[OBJECT])?;
    let j = object.index(tree, j)?;
    let slot = from_word(object.key_entries[j]) as usize;
    layout.slot_index(slot).ok_or(outside(tree))?;
    Ok((slot as u64, object.entry(j)))
}

/// Type of the Entry at `tree`.
pub fn entry_type(doc: &[u8], tree: u64) -> Answer<u64> {
    let (entry_type, _) = Layout::open(doc, tree)?.tree_word(tree)?;
    if entry_type > CONTAINER {
        return Err(wrong_kind(tree));
    }
    Ok(u64::from(entry_type))
}

/// Offset of the Meta that the Entry at `tree` names; only that the Meta lies in the tree is tested.
pub fn container(doc: &[u8], tree: u64) -> Answer<u64> {
    let layout = Layout::open(doc, tree)?;
    let meta = layout.entry_value(tree, CONTAINER)? as u64;
    match layout.tree_word(meta) {
        Ok(_) => Ok(meta),
        Err(_) => Err(outside(tree)),
    }
}

/// Place and length of the text that the Entry at `tree` names.
pub fn string(doc: &[u8], tree: u64) -> Answer<(u64, u64)> {
    let layout = Layout::open(doc, tree)?;
    let slot = layout.entry_value(tree, STRING)?;
    let text = layout.text_of_slot(slot).ok_or(outside(tree))?;
    Ok((text.start as u64, text.len() as u64))
}

/// The 64 bits of the number that the Entry at `tree` names.
pub fn number(doc: &[u8], tree: u64) -> Answer<u64> {
    let layout = Layout::open(doc, tree)?;
    let offset = layout.entry_value(tree, NUMBER)?;
    let bits = layout.number(offset).ok_or(outside(tree))?;
    if !f64::from_bits(bits).is_finite() {
        return Err(Refusal {
            number: 10,
            place: tree,
        });
    }
    Ok(bits)
}

/// Place and length of the text of the slot at `slot`.
pub fn slot(doc: &[u8], slot: u64) -> Answer<(u64, u64)> {
    let layout = Layout::open(doc, slot)?;
    let text = usize::try_from(slot)
        .ok()
        .and_then(|offset| layout.text_of_slot(offset))
        .ok_or(outside(slot))?;
    Ok((text.start as u64, text.len() as u64))
}

/// Looks for a key by halving, first the strings, then the object's KeyEntries; answers the Entry's
/// offset or absent, and how many comparisons each of the two took.
pub fn quick_lookup(doc: &[u8], tree: u64, key: &[u8]) -> Answer<(Option<u64>, u64, u64)> {
    let layout = Layout::open(doc, tree)?;
    let object = layout.container(tree, &[OBJECT])?;
    let (found, string_count) = halve(layout.slots.len(), |k| {
        let text = layout.text(k).ok_or(outside(tree))?;
        Ok(doc[text].cmp(key))
    })?;
    let Some(k) = found else {
        return Ok((None, string_count, 0));
    };
    let slot = layout.slot(k) as u64;
    let (found, key_count) = halve(object.size, |j| {
        Ok(u64::from(from_word(object.key_entries[j])).cmp(&slot))
    })?;
    Ok((found.map(|j| object.entry(j)), string_count, key_count))
}

/// Looks for a key member by member; answers the first match's Entry offset, or absent.
pub fn plain_scan(doc: &[u8], tree: u64, key: &[u8]) -> Answer<Option<u64>> {
    let layout = Layout::open(doc, tree)?;
    let object = layout.container(tree, &[OBJECT])?;
    for (j, &key_entry) in object.key_entries.iter().enumerate() {
        let text = layout
            .text_of_slot(from_word(key_entry) as usize)
            .ok_or(outside(tree))?;
        if doc[text] == *key {
            return Ok(Some(object.entry(j)));
        }
    }
    Ok(None)
}

/// Halves `count` items and answers the equal one, if any, and the number of comparisons; `compare`
/// says how the item stands to the one sought.
fn halve(
    count: usize,
    compare: impl Fn(usize) -> Answer<Ordering>,
) -> Answer<(Option<usize>, u64)> {
    let (mut low, mut high) = (0, count);
    let mut comparisons = 0;
    while low < high {
        let middle = low + (high - low) / 2;
        comparisons += 1;
        match compare(middle)? {
            Ordering::Equal => return Ok((Some(middle), comparisons)),
            Ordering::Less => low = middle + 1,
            Ordering::Greater => high = middle,
        }
    }
    Ok((None, comparisons))
}

/// 20: a word, body, slot, text or number outside its area or out of step.
fn outside(cursor: u64) -> Refusal {
    Refusal {
        number: 20,
        place: cursor,
    }
}

/// 21: the wrong kind or type.
fn wrong_kind(cursor: u64) -> Refusal {
    Refusal {
        number: 21,
        place: cursor,
    }
}

fn from_word(word: [u8; WORD]) -> u32 {
    u32::from_le_bytes(word)
}

/// The word at an offset, unless it passes the end of the area.
fn word_at(area: &[u8], offset: usize) -> Option<[u8; WORD]> {
    area.get(offset..)?.first_chunk().copied()
}

/// Which mark stands for the word of the tree at an offset.
fn mark_of(offset: usize) -> usize {
    (offset - ROOT) / WORD
}

/// Marks the words of a body, unless one of them is marked already; says whether it did.
fn mark_body(body: &mut [u8]) -> bool {
    // One pass tests and marks; if a mark was set, another takes all of it back.
    let mut met = 0;
    for mark in body.iter_mut() {
        met |= *mark;
        *mark += 1;
    }
    if met != 0 {
        body.iter_mut().for_each(|mark| *mark -= 1);
    }
    met == 0
}

/// Splits a word into its lowest five bits and the 27 bits above them.
fn split(word: [u8; WORD]) -> (u32, usize) {
    let word = from_word(word);
    (word & 0x1F, (word >> 5) as usize)
}

/// The areas of a document that has passed rules 1 to 4.
struct Layout<'d> {
    doc: &'d [u8],
    /// Header and tree: the document up to S.
    tree: &'d [u8],
    /// The C slots.
    slots: &'d [[u8; WORD]],
    /// Where the texts start: S+4+4C.
    texts: usize,
    /// N, as the last slot has it.
    numbers: usize,
}

impl<'d> Layout<'d> {
    /// Rules 1 to 4.
    fn read(doc: &'d [u8]) -> Answer<Layout<'d>> {
        let length = doc.len();
        if length < 12 {
            return Err(Refusal::new(1, length));
        }
        if length > MAX_LENGTH {
            return Err(Refusal::new(2, length));
        }
        let (version, string_index) = split([doc[0], doc[1], doc[2], doc[3]]);
        if version != 1 {
            return Err(Refusal::new(3, 0));
        }
        if string_index < 8 || !string_index.is_multiple_of(WORD) {
            return Err(Refusal::new(4, 0));
        }
        let count = word_at(doc, string_index).ok_or(Refusal::new(4, 0))?;
        let (slots, _) = doc[string_index + WORD..].as_chunks();
        let slots = slots
            .get(..from_word(count) as usize)
            .ok_or(Refusal::new(4, string_index))?;
        let texts = string_index + WORD + WORD * slots.len();
        let numbers = slots.last().map_or(texts, |&slot| split(slot).1);
        Ok(Layout {
            doc,
            tree: &doc[..string_index],
            slots,
            texts,
            numbers,
        })
    }

    /// Rules 1 to 4, then 20 unless the areas stand in order: what every question starts with.
    fn open(doc: &'d [u8], cursor: u64) -> Answer<Layout<'d>> {
        let layout = Layout::read(doc)?;
        if layout.texts <= layout.numbers && layout.numbers <= doc.len() {
            Ok(layout)
        } else {
            Err(outside(cursor))
        }
    }

    /// Rules 5 to 7: the slots in turn with their texts, then the length of the number area.
    fn check_strings(&self) -> Answer<()> {
        let mut start = self.texts;
        let mut previous: Option<&[u8]> = None;
        for (k, &slot) in self.slots.iter().enumerate() {
            let (low_bits, end) = split(slot);
            let content = match self.doc.get(start..end) {
                Some([content @ .., 0]) if low_bits == 0 => content,
                _ => return Err(Refusal::new(5, self.slot(k))),
            };
            if previous.is_some_and(|previous| previous >= content) {
                return Err(Refusal::new(6, self.slot(k)));
            }
            previous = Some(content);
            start = end;
        }
        // The last text's end is N.
        if !(self.doc.len() - start).is_multiple_of(8) {
            return Err(Refusal::new(7, start));
        }
        Ok(())
    }

    /// The container whose Meta stands at `at`, unless its Meta or body passes S; the body of a kind
    /// other than object is measured as an array's.
    fn body(&self, at: usize) -> Option<Container<'d>> {
        let (kind, size) = split(word_at(self.tree, at)?);
        let key_count = if kind == OBJECT { size } else { 0 };
        let (words, _) = self.tree[at + WORD..].as_chunks();
        let (key_entries, entries) = words.get(..key_count + size)?.split_at(key_count);
        Some(Container {
            kind,
            size,
            key_entries,
            entries,
            entries_at: at + WORD + WORD * key_count,
        })
    }

    /// The word at a cursor into the tree, split; 20 if it is outside or out of step.
    fn tree_word(&self, cursor: u64) -> Answer<(u32, usize)> {
        usize::try_from(cursor)
            .ok()
            .filter(|&at| at >= ROOT && at.is_multiple_of(WORD))
            .and_then(|at| word_at(self.tree, at))
            .map(split)
            .ok_or(outside(cursor))
    }

    /// The container at a cursor, by the order of the Meta questions: cursor word, kind, body.
    fn container(&self, cursor: u64, wanted: &[u32]) -> Answer<Container<'d>> {
        let (kind, _) = self.tree_word(cursor)?;
        if !wanted.contains(&kind) {
            return Err(wrong_kind(cursor));
        }
        self.body(cursor as usize).ok_or(outside(cursor))
    }

    /// The value field of the Entry at a cursor, which must have the wanted type.
    fn entry_value(&self, cursor: u64, wanted: u32) -> Answer<usize> {
        match self.tree_word(cursor)? {
            (entry_type, value) if entry_type == wanted => Ok(value),
            _ => Err(wrong_kind(cursor)),
        }
    }

    /// Offset of slot k.
    fn slot(&self, k: usize) -> usize {
        self.tree.len() + WORD + WORD * k
    }

    /// Which slot stands at an offset, if any.
    fn slot_index(&self, offset: usize) -> Option<usize> {
        let past = offset.checked_sub(self.slot(0))?;
        let k = past / WORD;
        (past.is_multiple_of(WORD) && k < self.slots.len()).then_some(k)
    }

    /// Slot k read by a question: its content, if S+4+4C <= start < end <= N.
    fn text(&self, k: usize) -> Option<Range<usize>> {
        let start = match k.checked_sub(1) {
            Some(before) => split(self.slots[before]).1,
            None => self.texts,
        };
        let (_, end) = split(self.slots[k]);
        (self.texts <= start && start < end && end <= self.numbers).then(|| start..end - 1)
    }

    /// The content of the slot at an offset, read by a question.
    fn text_of_slot(&self, offset: usize) -> Option<Range<usize>> {
        self.slot_index(offset).and_then(|k| self.text(k))
    }

    /// The bits of the number at an offset, if it is inside the number area and in step.
    fn number(&self, offset: usize) -> Option<u64> {
        if !offset.checked_sub(self.numbers)?.is_multiple_of(8) {
            return None;
        }
        let bytes = self.doc.get(offset..)?.first_chunk()?;
        Some(u64::from_le_bytes(*bytes))
    }
}

/// Walks the containers of a document that has passed 5 to 7 and 15.
struct Walker<'d, 'm> {
    layout: Layout<'d>,
    /// One for each word of the tree: 1 for the words of the bodies marked, 0 for all others.
    marks: &'m mut [u8],
    /// How many of them are 1.
    marked: usize,
}

impl Walker<'_, '_> {
    /// Walks the container at `at` and all below it. Order: 12, 8, 14, marking, 11 for the KeyEntries,
    /// then 9 and 10 for the Entries, each child finished before the next Entry.
    fn container(&mut self, at: usize, depth: u32) -> Answer<()> {
        if depth > MAX_DEPTH {
            return Err(Refusal::new(12, at));
        }
        let container = self
            .layout
            .body(at)
            .filter(|c| c.kind <= SCALAR)
            .filter(|c| c.kind != SCALAR || (depth == 1 && c.size == 1))
            .ok_or(Refusal::new(8, at))?;

        let body = &mut self.marks[mark_of(at)..mark_of(container.end())];
        if !mark_body(body) {
            return Err(Refusal::new(14, at));
        }
        self.marked += body.len();

        let mut previous = self.layout.tree.len(); // the count's offset, before any slot
        for (j, &key_entry) in container.key_entries.iter().enumerate() {
            let slot = from_word(key_entry) as usize;
            if slot <= previous || slot >= self.layout.texts || !slot.is_multiple_of(WORD) {
                return Err(Refusal::new(11, at + WORD + WORD * j));
            }
            previous = slot;
        }

        for (i, &entry) in container.entries.iter().enumerate() {
            let place = container.entries_at + WORD * i;
            let (entry_type, value) = split(entry);
            if entry_type <= NULL {
                continue; // ahead of the match, which becomes a jump table
            }
            match entry_type {
                STRING if self.layout.slot_index(value).is_some() => {}
                NUMBER => {
                    let bits = self.layout.number(value).ok_or(Refusal::new(9, place))?;
                    if !f64::from_bits(bits).is_finite() {
                        return Err(Refusal::new(10, place));
                    }
                }
                CONTAINER
                    if container.kind != SCALAR && value > at && value.is_multiple_of(WORD) =>
                {
                    self.container(value, depth + 1)?;
                }
                _ => return Err(Refusal::new(9, place)),
            }
        }
        Ok(())
    }

    /// 13 at the first word that is not marked, after the walk.
    fn whole_tree(&self) -> Answer<()> {
        // No word was marked twice, so their number tells whether one is left.
        if self.marked == self.marks.len() {
            return Ok(());
        }
        let before = self.marks.iter().take_while(|&&mark| mark != 0).count();
        Err(Refusal::new(13, ROOT + WORD * before))
    }
}

/// A container: the two fields of its Meta and the words of its body.
struct Container<'d> {
    kind: u32,
    size: usize,
    /// One for each member, none in a container that is no object.
    key_entries: &'d [[u8; WORD]],
    entries: &'d [[u8; WORD]],
    /// Offset of the first Entry.
    entries_at: usize,
}

impl Container<'_> {
    /// Where the body ends.
    fn end(&self) -> usize {
        self.entries_at + WORD * self.size
    }

    /// An index under the size; 22 if it is at or past it.
    fn index(&self, cursor: u64, index: u64) -> Answer<usize> {
        usize::try_from(index)
            .ok()
            .filter(|&index| index < self.size)
            .ok_or(Refusal {
                number: 22,
                place: cursor,
            })
    }

    /// Offset of Entry i.
    fn entry(&self, i: usize) -> u64 {
        (self.entries_at + WORD * i) as u64
    }
}
