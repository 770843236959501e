//! `read_key` against member 0 and the first member by its text.

mod common;

use common::hex;
use czubrotek::fractured_json::{Document, Key, KeyList, KeyOffset, Lender, ValueOffset};

/// One byte more than a document may have.
const TOO_LONG: usize = 16_777_217;

/// Asks of the key at 4 of an object of one; answers whether it could be read.
fn same(key: &[u8], list: KeyList, (words, count): (&[u32], usize)) -> bool {
    let bytes = [b"\x46\x4A\x01\x6F", key].concat();
    let document = Document::unchecked_with_list(&bytes, list, words, count);
    let member = document.member(document.root(), 0);
    let read = document.read_key(KeyOffset(4));
    assert_eq!(
        read.map(|key| key.value),
        member.map(|member| member.value),
        "{bytes:02X?} {list:02X?} {words:?} {count}"
    );
    let Ok(key) = read else { return false };
    let lender = match key.lender {
        Lender::Document => &bytes[..],
        Lender::KeyList => list.bytes(),
    };
    assert_eq!(lender[key.place..][..key.text.len()], *key.text);
    assert_eq!(
        document.first_member(document.root(), key.text),
        Ok(Some(key.value))
    );
    true
}

const TABLES: [(&[u32], usize); 8] = [
    (&[], 0),
    (&[4, 1], 1),
    (&[0, 4, 4, 0], 2),
    (&[0, 4, 4, 0], 3),
    (&[0, 4, 4], 2),
    (&[5, 99, 2, 2], 2),
    (&[u32::MAX, 2, 1, u32::MAX], 2),
    (&[9; 400], 200),
];

/// The bytes of a key list of 100 names, each one byte.
fn hundred_names() -> Vec<u8> {
    let mut bytes = hex("006400");
    (0..100).for_each(|name| bytes.extend([1, 0, name]));
    bytes
}

/// Asks with every table and no names, and with a key list and no table; answers how often the key could be read.
fn times_read(key: &[u8], list: KeyList) -> usize {
    let without = TABLES.into_iter().map(|table| (KeyList::EMPTY, table));
    without
        .chain([(list, TABLES[0])])
        .filter(|&(list, table)| same(key, list, table))
        .count()
}

#[test]
fn every_key_byte_and_length() {
    let names = hundred_names();
    let list = KeyList::check(&names).unwrap();
    let mut good = 0;
    for byte in 0..=255 {
        for len in 0..=100 {
            let key = [&[byte][..], &vec![1; len]].concat();
            good += times_read(&key, list);
        }
    }
    assert!(good > 10_000, "{good}");
}

#[test]
fn every_shape_of_index() {
    const BYTES: [u8; 8] = [0x00, 0x01, 0x03, 0x04, 0x7F, 0x80, 0x81, 0xFF];
    let names = hundred_names();
    let list = KeyList::check(&names).unwrap();
    let mut good = 0;
    for form in 0x00..=0x02 {
        for [a, b, c] in BYTES
            .into_iter()
            .flat_map(|a| BYTES.map(|b| [a, b]))
            .flat_map(|[a, b]| BYTES.map(|c| [a, b, c]))
        {
            for len in [1, 2, 3, 4, 5, 130, 131, 132, 133, 200] {
                let mut key = vec![form, a, b, c];
                key.resize(len, 7);
                good += times_read(&key, list);
            }
        }
    }
    assert!(good > 10_000, "{good}");
}

/// {"b":null,"b":true,"b":false}, with "b" immediate, as a back reference and as name 1 of the key list.
#[test]
fn three_kinds_of_key() {
    let list = hex("000200010061010062");
    let bytes = hex("464A017104620057020281800001");
    let mut words = [0; 2];
    let document =
        Document::check_with_list(&bytes, KeyList::check(&list).unwrap(), &mut words).unwrap();
    let keys = [
        (4, Lender::Document, 5, 6),
        (7, Lender::Document, 5, 8),
        (9, Lender::KeyList, 8, 13),
    ];
    for (at, lender, place, value) in keys {
        let key = Key {
            text: b"b",
            lender,
            place,
            value: ValueOffset(value),
        };
        assert_eq!(document.read_key(KeyOffset(at)), Ok(key));
    }
}

#[test]
fn before_the_key() {
    let at = |bytes: &[u8], place| {
        let refusal = Document::unchecked(bytes, &[], 0)
            .read_key(KeyOffset(place))
            .unwrap_err();
        (refusal.number, refusal.place)
    };
    assert_eq!(at(b"", 4), (31, 0));
    assert_eq!(at(&vec![0; TOO_LONG], 4), (32, TOO_LONG as u64));
    assert_eq!(at(b"\x46\x4B\x01\x00", 3), (33, 0));
    assert_eq!(at(b"\x46\x4A\x11\x00", 3), (34, 2));
    assert_eq!(at(b"\x46\x4A\x01\x03", 2), (20, 2));
    assert_eq!(at(b"\x46\x4A\x01\x03", u64::MAX), (35, u64::MAX));
}
