//! Every row of the rulings, asked through the package.

mod common;

use common::hex;
use czubrotek::{Refusal, binary_json, fractured_json};
use std::fmt::Display;

/// `ok` and the answer, or the refusal.
fn said(answer: Result<impl Display, Refusal>) -> String {
    answer.map_or_else(no, |answer| format!("ok {answer}"))
}

fn no(refusal: Refusal) -> String {
    format!("no {} {}", refusal.number, refusal.place)
}

fn pair(a: impl Display, b: impl Display) -> String {
    format!("{a} {b}")
}

fn text(answer: Result<&[u8], Refusal>) -> String {
    spelled(answer.unwrap_or_default())
}

fn spelled(bytes: &[u8]) -> String {
    if bytes.is_empty() {
        return "-".to_string();
    }
    bytes.iter().map(|b| format!("{b:02X}")).collect()
}

/// The rows' number of a type or kind.
fn number(name: impl std::fmt::Debug, names: &[&str]) -> usize {
    let name = format!("{name:?}");
    names.iter().position(|n| *n == name).unwrap()
}

/// A check with the marks that the row lends, which the answer then shows, or with enough of them, full of noise.
fn binary_check(bytes: &[u8], lent: Option<&[u8]>) -> String {
    use binary_json::{Document, marks_enough};
    let verdict =
        |checked: Result<Document, Refusal>| checked.map_or_else(no, |_| "ok".to_string());
    let noise = || {
        (0..marks_enough(bytes.len()))
            .map(|k| (157 * k + 1) as u8)
            .collect()
    };
    let mut marks = lent.map_or_else(noise, Vec::from);
    let said = verdict(Document::check_with_marks(bytes, &mut marks));
    if lent.is_some() {
        return format!("{said} marks={}", spelled(&marks));
    }
    assert_eq!(verdict(Document::check(bytes)), said);
    said
}

fn binary(bytes: &[u8], lent: &Lent, question: &str, args: &[&str]) -> String {
    use binary_json::{Document, SlotOffset, TreeOffset};
    let document = Document::unchecked(bytes);
    let cursor: u64 = args.first().map_or(0, |a| a.parse().unwrap());
    let at = TreeOffset(cursor);
    let slot = SlotOffset(cursor);
    let index = || args[1].parse().unwrap();
    match question {
        "check" => binary_check(bytes, lent.marks.as_deref()),
        "kind_and_size" => {
            let kinds = ["Array", "Object", "Scalar"];
            said(
                document
                    .kind_and_size(at)
                    .map(|(kind, size)| pair(number(kind, &kinds), size)),
            )
        }
        "element" => said(document.element(at, index()).map(|e| e.0)),
        "member" => said(
            document
                .member(at, index())
                .map(|m| pair(m.slot.0, m.entry.0)),
        ),
        "entry_type" => {
            let types = ["False", "True", "Null", "String", "Number", "Container"];
            said(document.entry_type(at).map(|t| number(t, &types)))
        }
        "container" => said(document.container(at).map(|m| m.0)),
        "string" => said(document.string_range(at).map(|r| pair(r.start, r.len()))),
        "string_text" => text(document.string(at)),
        "number" => said(document.number(at).map(|n| n.bits())),
        "slot" => said(document.slot_range(slot).map(|r| pair(r.start, r.len()))),
        "slot_text" => text(document.slot(slot)),
        "quick_lookup" => match document.quick_lookup(at, &hex(args[1])) {
            Err(refusal) => format!("{} 0 0", no(refusal)),
            Ok(found) => {
                let entry = found
                    .entry
                    .map_or("absent".to_string(), |e| format!("ok {}", e.0));
                format!(
                    "{entry} {} {}",
                    found.string_comparisons, found.key_comparisons
                )
            }
        },
        "plain_scan" => match document.plain_scan(at, &hex(args[1])) {
            Ok(None) => "absent".to_string(),
            found => said(found.map(|e| e.unwrap().0)),
        },
        _ => panic!("no question {question}"),
    }
}

fn fractured(bytes: &[u8], lent: &Lent, question: &str, args: &[&str]) -> String {
    use fractured_json::{Document, Kind, ValueOffset};
    let document = Document::unchecked(bytes, &lent.table, lent.count);
    let at = ValueOffset(args.first().map_or(0, |a| a.parse().unwrap()));
    let index = || args[1].parse().unwrap();
    match question {
        "check" => {
            let mut words = vec![0; lent.words];
            let (verdict, count) = match Document::check(bytes, &mut words) {
                Ok(document) => ("ok".to_string(), document.count()),
                Err(refused) => (no(refused.refusal), refused.count),
            };
            let pairs: String = words[..2 * count].iter().map(|w| format!(" {w}")).collect();
            format!("{verdict} {count}{pairs}")
        }
        "end" => said(document.end(at)),
        "kind" => said(document.kind(at).map(|kind| match kind {
            Kind::String(n) => format!("string {n}"),
            Kind::Object(n) => format!("object {n}"),
            Kind::Array(n) => format!("array {n}"),
            plain => format!("{plain:?}").to_lowercase(),
        })),
        "number" => said(
            document
                .number_bits(at)
                .map(|n| pair(n.type_byte(), n.bits())),
        ),
        "string" => said(document.string_range(at).map(|r| pair(r.start, r.len()))),
        "string_text" => text(document.string(at)),
        "element" => said(document.element(at, index()).map(|e| e.0)),
        "member" => said(
            document
                .member(at, index())
                .map(|m| pair(m.key.0, m.value.0)),
        ),
        "first_member" => match document.first_member(at, &hex(args[1])) {
            Ok(None) => "absent".to_string(),
            found => said(found.map(|v| v.unwrap().0)),
        },
        _ => panic!("no question {question}"),
    }
}

/// What a row lends beside the document: the marks or the words of a check, the table and count of a question of FJ.
struct Lent {
    marks: Option<Vec<u8>>,
    words: usize,
    table: Vec<u32>,
    count: usize,
}

fn answer(question: &str) -> String {
    let (lends, asks): (Vec<&str>, Vec<&str>) =
        question.split(' ').partition(|word| word.contains('='));
    let mut lent = Lent {
        marks: None,
        words: 2 * fractured_json::MOST_KEYS,
        table: Vec::new(),
        count: 0,
    };
    for (name, value) in lends.iter().filter_map(|word| word.split_once('=')) {
        match name {
            "marks" => lent.marks = Some(hex(value)),
            "words" => lent.words = value.parse().unwrap(),
            "table" => lent.table = value.split(',').map(|w| w.parse().unwrap()).collect(),
            "count" => lent.count = value.parse().unwrap(),
            _ => panic!("nothing is lent as {name}"),
        }
    }
    let bytes = hex(asks[1]);
    match asks[0] {
        "B" => binary(&bytes, &lent, asks[2], &asks[3..]),
        _ => fractured(&bytes, &lent, asks[2], &asks[3..]),
    }
}

#[test]
fn every_row() {
    let rows = include_str!("../../../tests/rulings.txt");
    let mut wrong = 0;
    for row in rows.lines() {
        let (question, want) = row.split_once(" = ").unwrap();
        let said = answer(question);
        if said != want {
            println!("{row}\n  but the package says {said}");
            wrong += 1;
        }
    }
    assert_eq!(rows.lines().count(), 243);
    assert_eq!(wrong, 0);
}
