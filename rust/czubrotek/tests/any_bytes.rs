//! Nothing panics and every walk ends, whatever the bytes: specimens with bytes changed, cut and added, and odd cursors.

mod common;

use common::hex;
use czubrotek::{binary_json, fractured_json};

/// Numbers that look random and are the same at each run.
struct Numbers(u64);

impl Numbers {
    fn next(&mut self) -> u64 {
        self.0 ^= self.0 << 13;
        self.0 ^= self.0 >> 7;
        self.0 ^= self.0 << 17;
        self.0
    }

    fn below(&mut self, n: usize) -> usize {
        (self.next() % n as u64) as usize
    }

    /// A specimen with one to four changes.
    fn spoil(&mut self, specimen: &str) -> Vec<u8> {
        let mut bytes = hex(specimen);
        for _ in 0..=self.below(4) {
            let at = self.below(bytes.len() + 1);
            match (self.below(4), bytes.get_mut(at)) {
                (0, _) => bytes.truncate(at.max(4)),
                (1, _) => bytes.push(self.next() as u8),
                (2, Some(byte)) => *byte ^= 1 << (at % 8),
                (_, Some(byte)) => *byte = self.next() as u8,
                _ => {}
            }
        }
        bytes
    }

    /// A cursor or index: mostly near, sometimes far.
    fn cursor(&mut self) -> u64 {
        match self.below(8) {
            0 => u64::MAX - self.next() % 16,
            1 => self.next(),
            _ => self.next() % 48,
        }
    }
}

/// Walks so many levels down; a document that nobody checked may have no end. Answers the values met.
fn binary_walk(value: binary_json::Value, levels: u32) -> usize {
    use binary_json::Value;
    let inner: Vec<Value> = match value {
        Value::Array(array) if levels > 0 => array.iter().flatten().take(3).collect(),
        Value::Object(object) if levels > 0 => object
            .iter()
            .flatten()
            .map(|(_, value)| value)
            .take(3)
            .collect(),
        _ => return 1,
    };
    1 + inner
        .into_iter()
        .map(|value| binary_walk(value, levels - 1))
        .sum::<usize>()
}

fn fractured_walk(value: fractured_json::Value) -> usize {
    use fractured_json::Value;
    let inner: Vec<Value> = match value {
        Value::Array(array) => array.iter().flatten().collect(),
        Value::Object(object) => object.iter().flatten().map(|(_, value)| value).collect(),
        _ => return 1,
    };
    1 + inner.into_iter().map(fractured_walk).sum::<usize>()
}

/// Whether no step of a checked document is refused, and both lookups find each member.
fn binary_whole(document: binary_json::Document, value: binary_json::Value) -> bool {
    use binary_json::Value;
    match value {
        Value::Array(array) => array
            .iter()
            .all(|item| binary_whole(document, item.unwrap())),
        Value::Object(object) => object.iter().enumerate().all(|(j, item)| {
            let (key, item) = item.unwrap();
            let entry = Some(document.member(object.offset(), j).unwrap().entry);
            document.quick_lookup(object.offset(), key).unwrap().entry == entry
                && document.plain_scan(object.offset(), key) == Ok(entry)
                && binary_whole(document, item)
        }),
        _ => true,
    }
}

/// Checks with marks that hold these bytes, and holds verdict and marks to each other and to the check that brings its
/// own. Answers the refusal's number, 0 where there is none.
fn binary_marks(bytes: &[u8], held: &[u8]) -> usize {
    use binary_json::Document;
    let own = Document::check(bytes).err();
    let mut marks = held.to_vec();
    let said = Document::check_with_marks(bytes, &mut marks).err();
    let (number, place) = said.map_or((0, 0), |refusal| (refusal.number, refusal.place as usize));
    if let 1..=7 | 15 = number {
        assert_eq!(marks, held);
    }
    if let 1..=7 = number {
        assert_eq!(said, own);
        return number as usize;
    }
    let index = u32::from_le_bytes(*bytes.first_chunk().unwrap()) as usize / 32;
    let mark_of = |place: usize| place / 4 - 1;
    let words = mark_of(index);
    if number == 15 {
        assert!(held.len() < words && place == index);
        assert!(own.is_none_or(|refusal| (8..15).contains(&refusal.number)));
        return 15;
    }
    assert_eq!(said, own);
    assert_eq!(marks[words..], held[words..]);
    assert!(marks[..words].iter().all(|&mark| mark < 2));
    let unmarked = marks[..words].iter().position(|&mark| mark == 0);
    match number {
        0 => assert_eq!(unmarked, None),
        9..=11 => assert_eq!(marks[mark_of(place)], 1),
        13 => assert_eq!(unmarked, Some(mark_of(place))),
        14 => assert!(marks[mark_of(place)..words].contains(&1)),
        _ => {}
    }
    number as usize
}

/// Whether no step of a checked document is refused, and each item is what its question says.
fn fractured_whole(value: fractured_json::Value) -> bool {
    use fractured_json::Value;
    let same = |a: &Value, b: &Value| format!("{a:?}") == format!("{b:?}");
    match value {
        Value::Array(array) => array.iter().enumerate().all(|(i, item)| {
            let item = item.unwrap();
            same(&item, &array.element(i).unwrap()) && fractured_whole(item)
        }),
        Value::Object(object) => object.iter().enumerate().all(|(j, item)| {
            let (key, item) = item.unwrap();
            let (asked, value) = object.member(j).unwrap();
            key == asked
                && same(&item, &value)
                && object.get(key).unwrap().is_some()
                && fractured_whole(item)
        }),
        _ => true,
    }
}

#[test]
fn binary_json() {
    use binary_json::{Document, SlotOffset, TreeOffset};
    let specimens = [
        "010100000000000000000000",
        "0102000021000000140000000100000001000000400300006100",
        "81010000220000000402000000000000000000000000F03F",
        "81010000200000008500000000000000",
        "01030000410000001C000000200000000100000002000000030000004005000080050000C0050000610062006300",
        "010400004000000005020000050300002000000085030000000000000000000000000000",
    ];
    let mut numbers = Numbers(0x9E37_79B9_7F4A_7C15);
    let mut values = 0;
    let mut met = [false; 16];
    for turn in 0..200_000 {
        let bytes = numbers.spoil(specimens[turn % specimens.len()]);
        let document = Document::unchecked(&bytes);
        let (at, index) = (TreeOffset(numbers.cursor()), numbers.cursor() as usize);
        let _ = document.kind_and_size(at);
        let _ = document.element(at, index);
        let _ = document.member(at, index);
        let _ = document.container(at);
        let _ = document.string(at);
        let _ = document.number(at);
        let _ = document.slot(SlotOffset(at.0));
        let _ = document.quick_lookup(at, &bytes[..4]);
        let _ = document.plain_scan(at, b"b");
        let _ = document.value_at(at);
        values += document.value().map_or(0, |value| binary_walk(value, 4));
        if let Ok(document) = Document::check(&bytes) {
            assert!(
                binary_whole(document, document.value().unwrap()),
                "{bytes:02X?}"
            );
        }
        let held: Vec<u8> = (0..numbers.below(12))
            .map(|_| numbers.next() as u8)
            .collect();
        met[binary_marks(&bytes, &held)] = true;
    }
    assert!(values > 50_000, "{values}");
    // all but 2 and 12, for which the documents are too short
    let unmet: Vec<_> = (0..16).filter(|&number| !met[number]).collect();
    assert_eq!(unmet, [2, 12]);
}

#[test]
fn fractured_json() {
    use fractured_json::{Document, KeyList, KeyOffset, ValueOffset};
    let specimens = [
        "464A016F046102",
        "464A01A0BEFD",
        "464A01A06F0461006F57DF",
        "464A0170046100046101",
        "464A01A20C000000000000F03F0B0000803F0E0100610D0018",
        "464A0171AB000461020201BE",
    ];
    let names = "00020001006102006263";
    let mut numbers = Numbers(0x2545_F491_4F6C_DD1D);
    let mut values = 0;
    for turn in 0..200_000 {
        let bytes = numbers.spoil(specimens[turn % specimens.len()]);
        let mut words = [numbers.cursor() as u32, numbers.cursor() as u32, 5, 1, 7];
        let names = [hex(names), numbers.spoil(names)];
        let list = KeyList::check(&names[turn % 2]).unwrap_or(KeyList::EMPTY);
        let document = Document::unchecked_with_list(&bytes, list, &words, turn % 4);
        let (at, index) = (ValueOffset(numbers.cursor()), numbers.cursor() as usize);
        let _ = document.end(at);
        let _ = document.kind(at);
        let _ = document.number(at);
        let _ = document.string(at);
        let _ = document.element(at, index);
        let _ = document.member(at, index);
        let _ = document.first_member(at, b"a");
        let _ = document.read_key(KeyOffset(at.0));
        let _ = document.value_at(at);
        values += document.value().map_or(0, fractured_walk);
        if let Ok(document) = Document::check_with_list(&bytes, list, &mut words) {
            assert!(fractured_whole(document.value().unwrap()), "{bytes:02X?}");
        }
    }
    assert!(values > 50_000, "{values}");
}
