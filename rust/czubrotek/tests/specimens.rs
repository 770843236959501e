//! The specimens of docs/format/SPECIMENS.md.

mod common;
#[path = "common/tree.rs"]
mod tree;

use common::hex;
use czubrotek::{Refusal, binary_json, fractured_json};
use fractured_json::KeyTable;
use tree::{Json, array, binary_means, little_endian, object, text};

/// The longest document of either format, in bytes.
const LONGEST: usize = 16_777_216;

/// How deep containers may nest.
const DEEPEST: usize = 64;

/// The verdict on a BinaryJson document: nothing, or the refusal's number and place.
fn binary(bytes: &[u8]) -> Option<(u32, u64)> {
    let refusal = binary_json::Document::check(bytes).err()?;
    Some((refusal.number, refusal.place))
}

/// The same for Fractured JSON, with a key table of its own.
fn fractured(bytes: &[u8]) -> Option<(u32, u64)> {
    let refused = fractured_json::Document::check(bytes, &mut KeyTable::new()).err()?;
    Some((refused.refusal.number, refused.refusal.place))
}

/// A Fractured JSON tree as JSON.
fn fractured_tree(value: fractured_json::Value) -> Json {
    use fractured_json::{Number, Value};
    Ok(match value {
        Value::Null => "null".to_string(),
        Value::Bool(b) => b.to_string(),
        Value::Number(Number::Int(n)) => n.to_string(),
        Value::Number(Number::UInt(n)) => n.to_string(),
        Value::Number(Number::Float32(x)) => format!("{x:?}"),
        Value::Number(Number::Float64(x)) => format!("{x:?}"),
        Value::String(string) => text(string),
        Value::Array(items) => array(items.iter(), fractured_tree)?,
        Value::Object(members) => object(members.iter(), fractured_tree)?,
    })
}

fn fractured_means(bytes: &[u8]) -> String {
    let mut keys = KeyTable::new();
    let document = fractured_json::Document::check(bytes, &mut keys).unwrap();
    fractured_tree(document.value().unwrap()).unwrap()
}

#[test]
fn the_fourteen() {
    let empty = hex("010100000000000000000000");
    assert_eq!(binary_means(&empty), "[]");
    assert_eq!(binary(&empty[..11]), Some((1, 11)));
    let mut version = empty.clone();
    version[0] = 0x02;
    assert_eq!(binary(&version), Some((3, 0)));
    let mut kind = empty.clone();
    kind[4] = 0x03;
    assert_eq!(binary(&kind), Some((8, 4)));

    let mut object = hex("0102000021000000140000000100000001000000400300006100");
    assert_eq!(binary_means(&object), r#"{"a":true}"#);
    object[25] = 0x01;
    assert_eq!(binary(&object), Some((5, 20)));
    assert_eq!(
        binary_means(&hex("81010000220000000402000000000000000000000000F03F")),
        "1.0"
    );
    assert_eq!(
        binary(&hex("81010000200000008500000000000000")),
        Some((9, 8))
    );

    assert_eq!(fractured_means(&hex("464A016F046102")), r#"{"a":true}"#);
    assert_eq!(fractured_means(&hex("464A01A0BEFD")), "[-32,31]");
    assert_eq!(
        fractured_means(&hex("464A01A06F0461006F57DF")),
        r#"[{"a":null},{"a":1}]"#
    );
    assert_eq!(fractured(&hex("464A01FE")), Some((36, 3)));
    assert_eq!(fractured(&hex("464A016F5700")), Some((38, 4)));
    assert_eq!(fractured(&hex("464A0170046100046101")), Some((39, 7)));
}

#[test]
fn lookups_with_counts() {
    use binary_json::{Lookup, TreeOffset};
    let bytes = hex("0102000021000000140000000100000001000000400300006100");
    let document = binary_json::Document::check(&bytes).unwrap();
    let root = document.root();
    let found = Lookup {
        entry: Some(TreeOffset(12)),
        string_comparisons: 1,
        key_comparisons: 1,
    };
    let absent = Lookup {
        entry: None,
        string_comparisons: 1,
        key_comparisons: 0,
    };
    assert_eq!(document.quick_lookup(root, b"a"), Ok(found));
    assert_eq!(document.quick_lookup(root, b"b"), Ok(absent));
    assert_eq!(document.plain_scan(root, b"a"), Ok(found.entry));
    assert_eq!(document.plain_scan(root, b"b"), Ok(None));
}

#[test]
fn lengths() {
    // [null] and unused numbers
    let mut bytes = hex("81010000200000000200000000000000");
    bytes.resize(LONGEST, 0);
    assert_eq!(binary_means(&bytes), "[null]");
    bytes.push(0);
    assert_eq!(binary(&bytes), Some((2, LONGEST as u64 + 1)));

    // a string of 16,777,208 bytes
    let mut bytes = hex("464A010FF8FFFF00");
    bytes.resize(LONGEST, b'x');
    assert_eq!(fractured(&bytes), None);
    bytes.push(0);
    assert_eq!(fractured(&bytes), Some((32, LONGEST as u64 + 1)));
}

#[test]
fn the_last_bytes_of_the_longest_binary_json() {
    use binary_json::{Document, SlotOffset, Value};
    // {"x...x":"y"}: the tree up to 16, both slots up to 28, then the texts; "y" ends at the last byte
    let past = LONGEST as u32 - 2;
    let mut bytes = little_endian(&[
        1 + 32 * 16,
        1 + 32,
        20,
        3 + 32 * 24,
        2,
        32 * past,
        32 * (past + 2),
    ]);
    bytes.resize(LONGEST, b'x');
    bytes[past as usize - 1..].copy_from_slice(b"\0y\0");
    let document = Document::check(&bytes).unwrap();
    let entry = document.member(document.root(), 0).unwrap().entry;
    let range = past as usize..LONGEST - 1;
    assert_eq!(document.string_range(entry), Ok(range.clone()));
    assert_eq!(document.slot_range(SlotOffset(24)), Ok(range));
    assert_eq!(document.string(entry), Ok(&b"y"[..]));
    let Ok(Value::Object(object)) = document.value() else {
        panic!("no object");
    };
    let key = vec![b'x'; LONGEST - 31];
    assert!(matches!(object.member(0), Ok((k, Value::String(b"y"))) if k == key));
    assert!(matches!(object.get(&key), Ok(Some(Value::String(b"y")))));
    assert!(matches!(object.get(&key[1..]), Ok(None)));
    assert_eq!(document.plain_scan(document.root(), &key), Ok(Some(entry)));

    // [0.0,...,-1.5], each Entry with a number of its own, as many as fit, and an odd number of them, so that the last one ends at
    // the last byte
    let n = 1_398_099;
    let index = 8 + 4 * n;
    let mut words = vec![1 + 32 * index, 32 * n];
    words.extend((0..n).map(|i| 4 + 32 * (LONGEST as u32 - 8 * (n - i))));
    words.push(0);
    let mut bytes = little_endian(&words);
    bytes.resize(LONGEST - 8, 0);
    bytes.extend((-1.5_f64).to_le_bytes());
    let document = Document::check(&bytes).unwrap();
    let Ok(Value::Array(array)) = document.value() else {
        panic!("no array");
    };
    assert_eq!(array.len(), n as usize);
    let last = array.element(n as usize - 1);
    assert!(matches!(last, Ok(Value::Number(x)) if x.to_f64() == -1.5));
    assert_eq!(array.element(n as usize).err().map(|r| r.number), Some(22));
}

#[test]
fn the_last_bytes_of_the_longest_fractured_json() {
    use fractured_json::{Document, Number, Value};
    // an array of nulls whose last element, 31, is the last byte
    let n = LONGEST - 8;
    let mut bytes = hex("464A0115F8FFFF00");
    bytes.resize(LONGEST, 0x00);
    bytes[LONGEST - 1] = 0xFD;
    let document = Document::check(&bytes, &mut []).unwrap();
    let last = document.element(document.root(), n - 1).unwrap();
    assert_eq!(last.0, LONGEST as u64 - 1);
    assert_eq!(document.number(last), Ok(Number::Int(31)));
    assert_eq!(document.end(document.root()), Ok(LONGEST as u64));
    let Ok(Value::Array(array)) = document.value() else {
        panic!("no array");
    };
    assert_eq!(array.len(), n);
    let last = array.element(n - 1);
    assert!(matches!(last, Ok(Value::Number(Number::Int(31)))));

    // {"a":"x...x","b":{"b":true}}: the second "b" is a back reference, to a pair near the end
    let text = vec![b'x'; LONGEST - 16];
    let head = hex("464A017004610FF0FFFF00");
    let bytes = [&head[..], &text, &hex("04626F5802")].concat();
    assert_eq!(bytes.len(), LONGEST);
    let mut words = [0; 4];
    let document = Document::check(&bytes, &mut words).unwrap();
    assert_eq!(document.words(), [5, 1, LONGEST as u32 - 4, 1]);
    let Ok(Value::Object(object)) = document.value() else {
        panic!("no object");
    };
    assert!(matches!(object.get(b"a"), Ok(Some(Value::String(t))) if t == text));
    let Ok(Some(Value::Object(inner))) = object.get(b"b") else {
        panic!("no object");
    };
    assert!(matches!(inner.get(b"b"), Ok(Some(Value::Bool(true)))));
}

#[test]
fn depths() {
    let whole = "[".repeat(DEEPEST) + &"]".repeat(DEEPEST);
    // arrays of one that name the next, the last empty
    let nested = |depth: usize| {
        let depth = depth as u32;
        let index = 4 + 8 * (depth - 1) + 4;
        let mut words = vec![1 + 32 * index];
        for level in 1..depth {
            words.extend([32, 5 + 32 * (4 + 8 * level)]);
        }
        words.extend([0, 0]);
        little_endian(&words)
    };
    assert_eq!(binary_means(&nested(DEEPEST)), whole);
    assert_eq!(binary(&nested(DEEPEST + 1)), Some((12, 516)));
    // the last of its words, and that alone, is in no body marked
    let mut marks = [7; 2 * DEEPEST + 1];
    assert!(binary_json::Document::check_with_marks(&nested(DEEPEST + 1), &mut marks).is_err());
    assert_eq!(marks[..2 * DEEPEST], [1; 2 * DEEPEST]);
    assert_eq!(marks[2 * DEEPEST], 0);

    let nested = |depth: usize| [&hex("464A01")[..], &vec![0x9F; depth - 1], &[0x9E]].concat();
    assert_eq!(fractured_means(&nested(DEEPEST)), whole);
    assert_eq!(fractured(&nested(DEEPEST + 1)), Some((41, 67)));
}

#[test]
fn strings_and_keys_around_their_tiny_forms() {
    let string = |head: &str, len: usize| fractured_means(&[hex(head), vec![b'x'; len]].concat());
    assert_eq!(string("464A016D", 87), format!("{:?}", "x".repeat(87)));
    assert_eq!(string("464A010D58", 88), format!("{:?}", "x".repeat(88)));
    let key =
        |head: &str, len: usize| fractured_means(&[hex(head), vec![b'k'; len], vec![0]].concat());
    assert_eq!(
        key("464A016F56", 83),
        format!("{{{:?}:null}}", "k".repeat(83))
    );
    assert_eq!(
        key("464A016F0054", 84),
        format!("{{{:?}:null}}", "k".repeat(84))
    );
}

#[test]
fn numbers_of_every_type() {
    use fractured_json::{Document, Number};
    let number = |bytes: &str| {
        let bytes = hex(&format!("464A01{bytes}"));
        let document = Document::check(&bytes, &mut []).unwrap();
        document.number(document.root()).unwrap()
    };
    assert_eq!(number("0380"), Number::Int(-128));
    assert_eq!(number("0480"), Number::UInt(128));
    assert_eq!(number("050080"), Number::Int(-32_768));
    assert_eq!(number("060080"), Number::UInt(32_768));
    assert_eq!(number("0700000080"), Number::Int(-2_147_483_648));
    assert_eq!(number("0800000080"), Number::UInt(2_147_483_648));
    assert_eq!(number("090000000000000080"), Number::Int(i64::MIN));
    assert_eq!(number("0AFFFFFFFFFFFFFFFF"), Number::UInt(u64::MAX));
    assert_eq!(number("0B000080BF"), Number::Float32(-1.0));
    assert_eq!(number("0C000000000000F0BF"), Number::Float64(-1.0));
    assert_eq!(number("BE"), Number::Int(-32));
    assert_eq!(number("FD"), Number::Int(31));
    let zero = number("0B00000080");
    assert!(zero.to_f64() == 0.0 && zero.to_f64().is_sign_negative());
}

#[test]
fn kind_2_in_unchecked_bytes() {
    use binary_json::{Document, TreeOffset, Value};
    let refused = |number, place| Some(Refusal { number, place });
    // a container under a top-level scalar, which names itself
    let bytes = hex("81010000220000008500000000000000");
    let document = Document::unchecked(&bytes);
    assert_eq!(document.value().err(), refused(21, 8));
    assert_eq!(document.value_at(TreeOffset(8)).err(), refused(21, 4));
    // a top-level scalar below the root
    let bytes = hex("810200002000000085010000220000000000000000000000");
    let Ok(Value::Array(array)) = Document::unchecked(&bytes).value() else {
        panic!("no array");
    };
    assert_eq!(array.element(0).err(), refused(21, 12));
}

#[test]
fn a_refused_item_is_the_last_of_fractured_json() {
    use fractured_json::{Document, Value};
    // 2^32-1 elements said, null and a reserved type byte there
    let bytes = hex("464A0115FFFFFFFF00FE");
    let Ok(Value::Array(array)) = Document::unchecked(&bytes, &[], 0).value() else {
        panic!("no array");
    };
    let mut items = array.iter();
    assert!(matches!(items.next(), Some(Ok(Value::Null))));
    let refusal = Refusal {
        number: 36,
        place: 9,
    };
    assert_eq!(items.next().and_then(Result::err), Some(refusal));
    assert!(items.next().is_none());
}

#[test]
fn the_highest_index() {
    assert_eq!(fractured(&hex("464A016F01FFFF0300")), Some((38, 4)));
    assert_eq!(fractured(&hex("464A016F01FFFF0400")), Some((37, 7)));
}

#[test]
fn a_full_key_table_and_one_key_more() {
    use fractured_json::{Document, MOST_KEYS, Refused};
    // an object of so many members, each with a key of two bytes and null
    let object = |members: u16| {
        let mut bytes = hex("464A0111");
        bytes.extend(members.to_le_bytes());
        for key in 0..members {
            bytes.push(0x05);
            bytes.extend(key.to_le_bytes());
            bytes.push(0x00);
        }
        bytes
    };
    // words past the room of 4,096 keys are never written
    let mut words = vec![9; 2 * MOST_KEYS + 2];
    let full = object(4096);
    let document = Document::check(&full, &mut words).unwrap();
    assert_eq!(document.count(), 4096);
    let last = document.member(document.root(), 4095).unwrap();
    let key = document.read_key(last.key).unwrap();
    assert_eq!(key.text, 4095u16.to_le_bytes());
    assert_eq!(document.words()[8190..], [16_387, 2, 9, 9]);
    let refusal = Refusal {
        number: 40,
        place: 16_390,
    };
    let over = Document::check(&object(4097), &mut words).unwrap_err();
    assert_eq!(
        over,
        Refused {
            refusal,
            count: 4096
        }
    );

    let mut table = KeyTable::with_room(1);
    assert_eq!(Document::check(&object(1), &mut table).unwrap().count(), 1);
    let refusal = Refusal {
        number: 40,
        place: 10,
    };
    let over = Document::check(&object(2), &mut table).unwrap_err();
    assert_eq!(over, Refused { refusal, count: 1 });
    assert_eq!(table[..], [7, 2]);
}
