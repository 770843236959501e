//! Key lists: their own check, and documents with global keys.

mod common;

use common::hex;
use czubrotek::Refusal;
use czubrotek::fractured_json::{Document, KeyList, Refused, Value};

/// The names "a" and "bc".
const A_BC: &str = "00020001006102006263";

#[test]
fn every_refusal_of_a_list() {
    let rows = [
        ("01", 51, 0),
        ("FF0000", 51, 0),
        ("-", 52, 0),
        ("0000", 52, 1),
        ("000100", 52, 3),
        ("00010001", 52, 3),
        ("000100020061", 52, 5),
        ("000200010061", 52, 6),
        ("0002000100610200", 52, 8),
        ("00000000", 53, 3),
        ("000100010061FFFF", 53, 6),
        ("000200010061010061", 54, 6),
        ("00020000000000", 54, 5),
        ("000300010061010061", 54, 6),
    ];
    for (list, number, place) in rows {
        let refusal = Refusal { number, place };
        assert_eq!(KeyList::check(&hex(list)), Err(refusal), "{list}");
    }
    for list in ["000000", "0001000000", A_BC] {
        let bytes = hex(list);
        assert_eq!(
            KeyList::check(&bytes).map(|list| list.bytes()),
            Ok(&bytes[..])
        );
    }
    assert_eq!(KeyList::check(&[0, 0, 0]), Ok(KeyList::EMPTY));
}

#[test]
fn indices_under_at_and_past_the_count() {
    let names = hex(A_BC);
    let list = KeyList::check(&names).unwrap();
    let check = |key: &str, list| {
        let bytes = hex(&format!("464A016F{key}00"));
        let checked = Document::check_with_list(&bytes, list, &mut []);
        checked.map(|_| ()).map_err(|refused| refused.refusal)
    };
    let not_found = Err(Refusal {
        number: 38,
        place: 4,
    });
    for key in ["AB", "AC", "0200", "0201", "028100", "02818000"] {
        assert_eq!(check(key, list), Ok(()), "{key}");
        assert_eq!(check(key, KeyList::EMPTY), not_found, "{key}");
    }
    for key in ["AD", "FE", "0202", "028200", "02828000", "02FFFF03"] {
        assert_eq!(check(key, list), not_found, "{key}");
    }
}

/// {"bc":true,"a":null,"a":false,"bc":[]}: global, immediate, global and global, so that "a" is no text met before.
#[test]
fn a_tree_with_global_keys() {
    let names = hex(A_BC);
    let list = KeyList::check(&names).unwrap();
    let bytes = hex("464A0172AC02046100AB01AC9E");
    let mut words = [0; 4];
    let document = Document::check_with_list(&bytes, list, &mut words).unwrap();
    assert_eq!(document.list(), list);
    assert_eq!((document.count(), document.words()), (1, &[7, 1, 0, 0][..]));
    let Ok(Value::Object(object)) = document.value() else {
        panic!("no object");
    };
    let keys: Result<Vec<_>, _> = object.iter().map(|m| m.map(|(key, _)| key)).collect();
    assert_eq!(keys, Ok(vec![&b"bc"[..], b"a", b"a", b"bc"]));
    assert!(matches!(object.member(3), Ok((b"bc", Value::Array(_)))));
    assert!(matches!(object.get(b"bc"), Ok(Some(Value::Bool(true)))));
    assert!(matches!(object.get(b"a"), Ok(Some(Value::Null))));
    assert!(matches!(object.get(b"b"), Ok(None)));

    // without the names the first key is not found
    let refused = Document::check(&bytes, &mut words).unwrap_err();
    let refusal = Refusal {
        number: 38,
        place: 4,
    };
    assert_eq!(refused, Refused { refusal, count: 0 });
    assert_eq!(words, [7, 1, 0, 0]);
}
