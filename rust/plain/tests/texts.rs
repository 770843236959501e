//! The order and the steps of two texts, by figures worked out from the request's words.

use std::cmp::Ordering::{self, Equal, Greater, Less};

use plain::text::compare;

/// Compares both ways round: the order is turned, the steps are the same.
fn expect(a: &[u8], b: &[u8], order: Ordering, steps: u64) {
    assert_eq!(compare(a, b), (order, steps), "{a:02X?} {b:02X?}");
    let turned = order.reverse();
    assert_eq!(compare(b, a), (turned, steps), "{b:02X?} {a:02X?}");
}

/// A text of so many bytes, with one of them larger.
fn larger_at(byte: usize, len: usize) -> Vec<u8> {
    let mut text = vec![b'm'; len];
    text[byte] = b'n';
    text
}

#[test]
fn equal_texts() {
    let rows = [
        (0, 0),
        (1, 1),
        (7, 7),
        (8, 1),
        (9, 2),
        (15, 8),
        (16, 2),
        (23, 9),
        (24, 3),
        (40, 5),
    ];
    for (len, steps) in rows {
        expect(&vec![b'm'; len], &vec![b'm'; len], Equal, steps);
    }
}

#[test]
fn prefixes() {
    // lengths, and the steps
    let rows = [
        (0, 1, 0),
        (0, 100, 0),
        (1, 2, 1),
        (7, 8, 7),
        (7, 100, 7),
        (8, 9, 1),
        (8, 16, 1),
        (9, 16, 2),
        (15, 16, 8),
        (16, 17, 2),
        (23, 24, 9),
    ];
    for (shorter, longer, steps) in rows {
        expect(&vec![b'm'; shorter], &vec![b'm'; longer], Less, steps);
    }
}

#[test]
fn a_byte_differs() {
    // the byte, the length of the text that has the larger one, that of the other, and the steps
    let rows = [
        (0, 1, 1, 1),
        (0, 7, 7, 1),
        (6, 7, 7, 7),
        (0, 8, 8, 1),
        (7, 8, 8, 1),
        (6, 7, 100, 7),
        (6, 8, 7, 7),
        (7, 8, 100, 1),
        (7, 15, 15, 1),
        (8, 9, 9, 2),
        (8, 15, 15, 2),
        (8, 16, 16, 2),
        (10, 15, 15, 4),
        (10, 100, 15, 4),
        (10, 16, 15, 4),
        (10, 16, 16, 2),
        (14, 15, 15, 8),
        (15, 16, 16, 2),
        (15, 40, 16, 2),
        (16, 23, 23, 3),
        (20, 23, 100, 7),
        (20, 24, 100, 3),
        (22, 23, 23, 9),
        (23, 24, 24, 3),
    ];
    for (byte, of_larger, of_smaller, steps) in rows {
        let larger = larger_at(byte, of_larger);
        expect(&larger, &vec![b'm'; of_smaller], Greater, steps);
    }
}

#[test]
fn zeros_are_bytes() {
    expect(b"", b"\0", Less, 0);
    expect(b"\0", b"\0\0", Less, 1);
    expect(b"a\0b", b"a\0c", Less, 3);
    expect(b"a", b"a\0", Less, 1);
    expect(&[0; 8], &[0; 9], Less, 1);
    expect(&[0; 8], &[0; 7], Greater, 7);
    expect(&[0; 16], &[0; 16], Equal, 2);
    expect(&[0; 8], b"\0\0\0\0\0\0\0\x01", Less, 1);
}

#[test]
fn bytes_have_no_sign() {
    expect(b"\x7F", b"\x80", Less, 1);
    expect(b"\x80", b"\xFF", Less, 1);
    expect(b"\x00", b"\xFF", Less, 1);
    expect(
        b"\x80\0\0\0\0\0\0\0",
        b"\x7F\xFF\xFF\xFF\xFF\xFF\xFF\xFF",
        Greater,
        1,
    );
    expect(b"mmmmmmm\x7F", b"mmmmmmm\x80", Less, 1);
}

#[test]
fn the_first_difference_tells() {
    expect(b"1mmmmmm2", b"2mmmmmm1", Less, 1);
    expect(b"mmm12mmm", b"mmm21mmm", Less, 1);
    expect(b"mmmmmmm12mmmmmmm", b"mmmmmmm21mmmmmmm", Less, 1);
    expect(b"12", b"21", Less, 1);
    expect(b"mmmmmmmm12", b"mmmmmmmm21", Less, 2);
    expect(b"1", b"21111111", Less, 1);
}
