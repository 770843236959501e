//! Rows of the questions that are asked at places, sixteen in turn, in a document of short containers.

use crate::asked::{Asked, checked_table};
use crate::cases::{BINARY_ROOT, Case, Place, Question};
use crate::checks::{binary_document, fractured_check, fractured_document};
use crate::shapes::{names, sixteens};
use crate::tables::{Row, row};
use documents::fractured_json::key_list;
use plain::Answer;
use std::array;

/// Where the root of a document of Fractured JSON stands.
const FRACTURED_ROOT: u64 = 3;

type Places = [Place; 16];

/// Where the values of `sixteens` stand in a document.
struct Sixteens {
    any: Places,
    containers: Places,
    /// What the containers' values name: the same places, but for BinaryJson.
    metas: Places,
    numbers: Places,
    /// The array of the numbers, with each index.
    array: Places,
    /// The object of the strings, with each index.
    object: Places,
    keys: Places,
    strings: Places,
}

impl Sixteens {
    /// Found by a reader's answers: the value of a name, the container that a value names, an element of an array, and
    /// key and value of a member.
    fn find(
        value: impl Fn(&[u8]) -> u64,
        container: impl Fn(u64) -> u64,
        element: impl Fn(u64, u64) -> u64,
        member: impl Fn(u64, u64) -> (u64, u64),
    ) -> Sixteens {
        let each = |name: &str| {
            let at = container(value(name.as_bytes()));
            array::from_fn(|i| (at, i as u64))
        };
        let elements = |name| each(name).map(|(array, i)| (element(array, i), 0));
        let containers = elements("containers");
        let object = each("strings");
        let members = object.map(|(object, j)| member(object, j));
        Sixteens {
            any: elements("any"),
            containers,
            metas: containers.map(|(at, _)| (container(at), 0)),
            numbers: elements("numbers"),
            array: each("numbers"),
            object,
            keys: members.map(|(key, _)| (key, 0)),
            strings: members.map(|(_, value)| (value, 0)),
        }
    }
}

/// A document, what is lent beside it, and where its values stand.
struct Document {
    bytes: Vec<u8>,
    beside: Vec<Vec<u8>>,
    at: Sixteens,
}

/// The document of a check, which both readers must accept.
fn accepted(check: Case) -> Vec<u8> {
    for mut call in [check.proved(), check.plain()] {
        call();
    }
    check.bytes
}

fn answered<T>(answer: Answer<T>) -> T {
    answer.expect("the place is good")
}

fn found(answer: Answer<Option<u64>>) -> u64 {
    answered(answer).expect("the root has the name")
}

fn binary() -> Document {
    use plain::binary_json::{container, element, member, plain_scan};
    let doc = accepted(Case::binary_check(binary_document(&sixteens())));
    let at = Sixteens::find(
        |name| found(plain_scan(&doc, BINARY_ROOT, name)),
        |entry| answered(container(&doc, entry)),
        |array, i| answered(element(&doc, array, i)),
        |object, j| answered(member(&doc, object, j)),
    );
    Document {
        bytes: doc,
        beside: vec![],
        at,
    }
}

/// With a key list of so many names, and then the keys of the object of the strings.
fn fractured(listed: usize) -> Document {
    use plain::fractured_json::{element, first_member, key, member};
    let doc = accepted(fractured_check(fractured_document(&sixteens())));
    let list = key_list(&names(listed));
    let (table, count) = checked_table(&doc, &list);
    let root = FRACTURED_ROOT;
    let at = Sixteens::find(
        |name| found(first_member(&doc, &list, &table, count, root, name)),
        |value| value,
        |array, i| answered(element(&doc, &list, &table, count, array, i)),
        |object, j| answered(member(&doc, &list, &table, count, object, j)),
    );
    let text = |(at, _)| answered(key(&doc, &list, &table, count, at)).text.to_vec();
    let keys = at.keys.map(text);
    Document {
        bytes: doc,
        beside: [list].into_iter().chain(keys).collect(),
        at,
    }
}

pub fn binary_questions() -> Vec<Row> {
    let row = |name, asked, places| question(name, asked, binary, places);
    vec![
        row("kind and size", Asked::BinaryKindAndSize, |at| at.metas),
        row("element", Asked::BinaryElement, |at| at.array),
        row("member", Asked::BinaryMember, |at| at.object),
        row("entry type", Asked::BinaryEntryType, |at| at.any),
        row("container", Asked::BinaryContainer, |at| at.containers),
        row("string", Asked::BinaryString, |at| at.strings),
        row("number", Asked::BinaryNumber, |at| at.numbers),
        row("slot", Asked::BinarySlot, |at| at.keys),
    ]
}

pub fn fractured_questions() -> Vec<Row> {
    let row = |name, asked, places| question(name, asked, || fractured(0), places);
    vec![
        row("end", Asked::FracturedEnd, |at| at.any),
        row("kind", Asked::FracturedKind, |at| at.any),
        row("number", Asked::FracturedNumber, |at| at.numbers),
        row("string", Asked::FracturedString, |at| at.strings),
        row("element", Asked::FracturedElement, |at| at.array),
        row("member", Asked::FracturedMember, |at| at.object),
        row("first member by key", Asked::FracturedFirstMember, |at| {
            at.object
        }),
        row("key", Asked::FracturedKey, |at| at.keys),
        question(
            "kind, 256 names",
            Asked::FracturedKind,
            || fractured(256),
            |at| at.any,
        ),
    ]
}

/// A question at its places. Before it is timed, both readers must have answered the same.
fn question(
    name: &'static str,
    asked: Asked,
    document: fn() -> Document,
    places: fn(Sixteens) -> Places,
) -> Row {
    row(name, move || {
        let document = document();
        let case = Case {
            question: Question::Asked(asked),
            bytes: document.bytes,
            beside: document.beside,
            places: places(document.at).to_vec(),
        };
        asked.compare(&case);
        let per = case.places.len();
        (case, per)
    })
}
