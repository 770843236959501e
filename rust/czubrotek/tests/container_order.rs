//! BinaryJson: containers in any order, and the marks that a check is lent.

mod common;
#[path = "common/tree.rs"]
mod tree;

use Entry::{Child, Null, Number, Text, True};
use common::hex;
use czubrotek::Refusal;
use czubrotek::binary_json::{Document, marks_enough};
use tree::{binary_means, little_endian};

/// The longest document, in bytes.
const LONGEST: usize = 16_777_216;

/// The verdict with lent marks.
fn check(bytes: &[u8], marks: &mut [u8]) -> Result<(), Refusal> {
    Document::check_with_marks(bytes, marks).map(|_| ())
}

fn refused(number: u32, place: u64) -> Result<(), Refusal> {
    Err(Refusal { number, place })
}

/// What an Entry stands for: strings, numbers and containers are counted from 0.
#[derive(Clone, Copy, PartialEq)]
enum Entry {
    Null,
    True,
    Text(u32),
    Number(u32),
    Child(usize),
}

/// A container: its kind, the strings that are its keys, and its Entries.
struct Container(u32, &'static [u32], &'static [Entry]);

const MEANT: &str = r#"{"a":[[1.5,"b"],{"c":[]}],"b":{"a":{},"c":[true,null]},"c":[[],"a"]}"#;

/// The containers of that value, depth first.
const CONTAINERS: [Container; 10] = [
    Container(1, &[0, 1, 2], &[Child(1), Child(5), Child(8)]),
    Container(0, &[], &[Child(2), Child(3)]),
    Container(0, &[], &[Number(0), Text(1)]),
    Container(1, &[2], &[Child(4)]),
    Container(0, &[], &[]),
    Container(1, &[0, 2], &[Child(6), Child(7)]),
    Container(1, &[], &[]),
    Container(0, &[], &[True, Null]),
    Container(0, &[], &[Child(9), Text(0)]),
    Container(0, &[], &[]),
];

const DEPTH_FIRST: [usize; 10] = [0, 1, 2, 3, 4, 5, 6, 7, 8, 9];
const BREADTH_FIRST: [usize; 10] = [0, 1, 5, 8, 2, 3, 6, 7, 9, 4];

/// The offset of each container's Meta when they stand in an order, and that of the string index.
fn places(order: &[usize]) -> ([u32; 10], u32) {
    let mut places = [0; 10];
    let mut at = 4;
    for &container in order {
        places[container] = at;
        let Container(_, keys, entries) = CONTAINERS[container];
        at += 4 * (1 + keys.len() + entries.len()) as u32;
    }
    (places, at)
}

/// The document whose containers stand in an order; its strings are "a", "b" and "c", its number is 1.5.
fn document(order: &[usize]) -> Vec<u8> {
    let (places, index) = places(order);
    let slot = |string: u32| index + 4 + 4 * string;
    let texts = slot(3);
    let mut words = vec![1 + 32 * index];
    for &container in order {
        let Container(kind, keys, entries) = CONTAINERS[container];
        words.push(kind + 32 * entries.len() as u32);
        words.extend(keys.iter().map(|&key| slot(key)));
        words.extend(entries.iter().map(|&entry| match entry {
            Null => 2,
            True => 1,
            Text(string) => 3 + 32 * slot(string),
            Number(number) => 4 + 32 * (texts + 6 + 8 * number),
            Child(child) => 5 + 32 * places[child],
        }));
    }
    words.push(3);
    words.extend([2, 4, 6].map(|end| 32 * (texts + end)));
    let mut bytes = little_endian(&words);
    bytes.extend(b"a\0b\0c\0");
    bytes.extend(1.5_f64.to_le_bytes());
    bytes
}

/// The container that a child stands in, and which of its Entries names the child.
fn parent(child: usize) -> Option<(usize, usize)> {
    let naming = |entries: &[Entry]| entries.iter().position(|&entry| entry == Child(child));
    CONTAINERS
        .iter()
        .enumerate()
        .find_map(|(container, Container(_, _, entries))| Some((container, naming(entries)?)))
}

/// Hands on every order that begins so and has each container after its parent.
fn every_order(begun: &mut Vec<usize>, hand_on: &mut impl FnMut(&[usize])) {
    if begun.len() == CONTAINERS.len() {
        return hand_on(begun);
    }
    for container in 0..CONTAINERS.len() {
        let due = parent(container).is_none_or(|(parent, _)| begun.contains(&parent));
        if due && !begun.contains(&container) {
            begun.push(container);
            every_order(begun, hand_on);
            begun.pop();
        }
    }
}

#[test]
fn breadth_first_means_the_same_as_depth_first() {
    assert_eq!(binary_means(&document(&DEPTH_FIRST)), MEANT);
    assert_eq!(binary_means(&document(&BREADTH_FIRST)), MEANT);
    let rows = [
        "010400004000000005020000850300002000000005030000000000000000000000000000",
        "010400004000000005020000050300002000000085030000000000000000000000000000",
    ];
    for row in rows {
        assert_eq!(binary_means(&hex(row)), "[[[]],[]]", "{row}");
    }
}

#[test]
fn every_order_means_the_same() {
    let mut orders = 0;
    every_order(&mut Vec::new(), &mut |order| {
        let bytes = document(order);
        assert_eq!(binary_means(&bytes), MEANT, "{order:?}");
        let words = (places(order).1 as usize - 4) / 4;
        let mut marks = vec![7; marks_enough(bytes.len())];
        assert_eq!(check(&bytes, &mut marks), Ok(()), "{order:?}");
        assert_eq!(marks[..words], vec![1; words]);
        assert_eq!(marks[words..], vec![7; marks.len() - words]);
        orders += 1;
    });
    assert_eq!(orders, 7560);
}

#[test]
fn a_child_before_its_parent() {
    // those whose parent is not the root
    for child in [2, 3, 4, 6, 7, 9] {
        let (parent, entry) = parent(child).unwrap();
        let mut order = DEPTH_FIRST.to_vec();
        order.remove(child);
        order.insert(parent, child);
        let Container(_, keys, _) = CONTAINERS[parent];
        let place = places(&order).0[parent] + 4 * (1 + keys.len() + entry) as u32;
        let said = Document::check(&document(&order)).map(|_| ());
        assert_eq!(said, refused(9, u64::from(place)), "{order:?}");
    }
}

/// Short, exact and long marks, whatever they held: 15 with fewer than the tree has words, else what the row says.
#[test]
fn marks_of_every_length() {
    // a document, its verdict, and the marks of the tree's words afterwards
    let rows = [
        ("010100000000000000000000", Ok(()), "01"),
        (
            "010400004000000005020000050300002000000085030000000000000000000000000000",
            Ok(()),
            "01010101010101",
        ),
        ("81010000230000000000000000000000", refused(8, 4), "0000"),
        (
            "810100002000000085FFFFFF00000000",
            refused(8, 134_217_724),
            "0101",
        ),
        ("81010000200000000501000000000000", refused(8, 8), "0101"),
        ("8101000020000000A501000000000000", refused(9, 8), "0101"),
        (
            "810200004000000005020000060000000000000000000000",
            refused(9, 12),
            "01010101",
        ),
        (
            "81010000200000000402000000000000000000000000F07F",
            refused(10, 8),
            "0101",
        ),
        (
            "01030000410000001C0000001C0000000900000000000000010000002004000000",
            refused(11, 12),
            "0101010101",
        ),
        (
            "810200002000000005020000000000000000000000000000",
            refused(13, 12),
            "01010001",
        ),
        (
            "01030000200000000502000000000000000000000000000000000000",
            refused(13, 12),
            "0101000100",
        ),
        (
            "0102000040000000000000000501000000000000",
            refused(14, 8),
            "010101",
        ),
        (
            "810200004000000005020000050200000000000000000000",
            refused(14, 16),
            "01010101",
        ),
        (
            "01030000400000008502000005020000200000000000000000000000",
            refused(14, 16),
            "0101010001",
        ),
    ];
    for (row, verdict, after) in rows {
        let (bytes, after) = (hex(row), hex(after));
        let words = after.len();
        assert!(words <= marks_enough(bytes.len()));
        assert_eq!(Document::check(&bytes).map(|_| ()), verdict, "{row}");
        for len in 0..words + 3 {
            for held in [0, 1, 0xFF] {
                let mut marks = vec![held; len];
                let said = check(&bytes, &mut marks);
                if len < words {
                    assert_eq!(said, refused(15, 4 + 4 * words as u64), "{row} {len}");
                    assert_eq!(marks, vec![held; len], "{row} {len}");
                } else {
                    assert_eq!(said, verdict, "{row} {len}");
                    assert_eq!(marks[..words], after, "{row} {len}");
                    assert_eq!(marks[words..], vec![held; len - words], "{row} {len}");
                }
            }
        }
    }
}

#[test]
fn marks_stay_at_1_to_7() {
    let rows = [
        ("0101000000000000000000", refused(1, 11)),
        ("020100000000000000000000", refused(3, 0)),
        ("810100000000000000000000", refused(4, 0)),
        ("010100000000000001000000", refused(4, 8)),
        ("010100000000000001000000400200006101", refused(5, 12)),
        (
            "010100000000000002000000C00200000003000061006100",
            refused(6, 16),
        ),
        ("01010000000000000000000000", refused(7, 12)),
    ];
    let stay = |bytes: &[u8], verdict| {
        for len in 0..5 {
            let mut marks = vec![0xFF; len];
            assert_eq!(check(bytes, &mut marks), verdict);
            assert_eq!(marks, vec![0xFF; len]);
        }
    };
    for (row, verdict) in rows {
        stay(&hex(row), verdict);
    }
    stay(&vec![0; LONGEST + 1], refused(2, LONGEST as u64 + 1));
}

/// The longest document, with as many words in its tree as it can have: an array of empty arrays, which stand in the
/// order opposite to their Entries, and false.
#[test]
fn the_longest_tree() {
    let n = 2_097_150;
    let first = 4 + 4 * (1 + n + 1);
    let index = LONGEST as u32 - 4;
    let mut words = vec![1 + 32 * index, 32 * (n + 1)];
    words.extend((0..n).rev().map(|child| 5 + 32 * (first + 4 * child)));
    words.resize(LONGEST / 4, 0);
    let bytes = little_endian(&words);
    let exactly = (index as usize - 4) / 4;
    assert!(Document::check(&bytes).is_ok());
    let mut marks = vec![0xFF; exactly];
    assert_eq!(check(&bytes, &mut marks[1..]), refused(15, index.into()));
    assert!(marks.iter().all(|&mark| mark == 0xFF));
    assert_eq!(check(&bytes, &mut marks), Ok(()));
    assert!(marks.iter().all(|&mark| mark == 1));

    // the last Entry that names an array names the one before: 14; or is true: 13 at the array left out
    let last = n as usize + 1;
    words[last] = words[last - 1];
    let second = u64::from(first) + 4;
    assert_eq!(
        check(&little_endian(&words), &mut marks),
        refused(14, second)
    );
    words[last] = 1;
    assert_eq!(
        check(&little_endian(&words), &mut marks),
        refused(13, first.into())
    );
    let unmarked = marks.iter().position(|&mark| mark == 0);
    assert_eq!(unmarked, Some((first as usize - 4) / 4));
}

/// Arrays of nulls, whose tree is all but eight bytes of them: the marks that a check brings are enough at every length.
#[test]
fn marks_of_its_own() {
    for nulls in 0..2000 {
        let mut words = vec![1 + 32 * (8 + 4 * nulls), 32 * nulls];
        words.extend((0..nulls).map(|_| 2));
        words.push(0);
        let said = Document::check(&little_endian(&words)).map(|_| ());
        assert_eq!(said, Ok(()), "{nulls}");
    }
}

#[test]
fn a_quarter_of_the_length() {
    const ENOUGH: usize = marks_enough(26);
    assert_eq!(ENOUGH, 6);
    assert_eq!([0, 11, 12].map(marks_enough), [0, 2, 3]);
    let most = 4_194_304;
    assert_eq!(marks_enough(LONGEST - 1), most - 1);
    assert_eq!(
        [LONGEST, LONGEST + 4, usize::MAX].map(marks_enough),
        [most; 3]
    );
}
