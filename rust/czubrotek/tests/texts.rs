//! The order and the steps of two texts.

mod common;

use common::hex;
use czubrotek::text::{Comparison, compare};
use std::cmp::Ordering::{self, Equal, Greater, Less};

/// Compares both ways round: the order is turned, the steps are the same.
fn expect(a: &[u8], b: &[u8], order: Ordering, steps: u64) {
    assert_eq!(compare(a, b), Comparison { order, steps });
    let order = order.reverse();
    assert_eq!(compare(b, a), Comparison { order, steps });
}

#[test]
fn orders_and_steps() {
    let rows = [
        ("-", "-", Equal, 0),
        ("-", "00", Less, 0),
        ("00", "00", Equal, 1),
        ("00", "0000", Less, 1),
        ("7F", "80", Less, 1),
        ("FF", "00", Greater, 1),
        ("6100FF", "610100", Less, 2),
        // seven bytes, and eight
        ("00000000000000", "00000000000000", Equal, 7),
        ("00000000000000", "0000000000000000", Less, 7),
        ("00000000000000", "00000000000001", Less, 7),
        ("0000000000000000", "0000000000000000", Equal, 1),
        ("0000000000000001", "0100000000000000", Less, 1),
        ("80FFFFFFFFFFFFFF", "7FFFFFFFFFFFFFFF", Greater, 1),
        ("0000000000000000", "000000000000000000", Less, 1),
        // one more, and eight more
        ("000000000000000061", "000000000000000062", Less, 2),
        ("000000000000000161", "000000000000000062", Greater, 1),
        (
            "61616161616161616161616161616100",
            "616161616161616161616161616161FF",
            Less,
            2,
        ),
        (
            "616161616161616161616161616100",
            "6161616161616161616161616161FF61",
            Less,
            8,
        ),
    ];
    for (a, b, order, steps) in rows {
        expect(&hex(a), &hex(b), order, steps);
    }
}

#[test]
fn every_length_and_every_byte() {
    for len in 0..=40 {
        let text = vec![b'm'; len];
        let (eights, ones) = (len as u64 / 8, len as u64 % 8);
        expect(&text, &text, Equal, eights + ones);
        // what one text has more is not compared
        expect(&text, &vec![b'm'; len + 9], Less, eights + ones);
        for byte in 0..len {
            let mut larger = text.clone();
            larger[byte] = 0xEE;
            let at = byte as u64;
            let steps = if at < 8 * eights {
                at / 8 + 1
            } else {
                eights + at % 8 + 1
            };
            expect(&text, &larger, Less, steps);
        }
    }
}

/// Every pair of texts of up to three bytes out of five.
#[test]
fn as_slices_compare() {
    let mut texts = vec![vec![]];
    for len in 0..3 {
        let longer: Vec<_> = texts
            .iter()
            .filter(|text: &&Vec<u8>| text.len() == len)
            .flat_map(|text| [0, 1, 0x7F, 0x80, 0xFF].map(|byte| [&text[..], &[byte]].concat()))
            .collect();
        texts.extend(longer);
    }
    assert_eq!(texts.len(), 1 + 5 + 25 + 125);
    for a in &texts {
        for b in &texts {
            assert_eq!(compare(a, b).order, a.cmp(b), "{a:02X?} {b:02X?}");
        }
    }
}

#[test]
fn long_texts() {
    let text = vec![0; 16_777_216];
    let mut other = text.clone();
    expect(&text, &other, Equal, 2_097_152);
    expect(&text, &other[..16_777_215], Greater, 2_097_151 + 7);
    other[16_777_215] = 1;
    expect(&text, &other, Less, 2_097_152);
    other[0] = 1;
    expect(&text, &other, Less, 1);
}
