//! The tests: all rows of the rulings, the specimens of docs/format/SPECIMENS.md, key lists, and laws
//! of all answers.

mod oracle;

use std::fmt::Write;

use plain::{Answer, Refusal, binary_json, fractured_json};

/// What a lent word holds before the check, so that a word written by mistake is seen.
const UNTOUCHED: u32 = 0xDEAD_BEEF;

/// What a lent mark holds before the check.
const NOISE: u8 = 0xA5;

/// A key list without names.
const NO_NAMES: &[u8] = &[0, 0, 0];

/// The longest document of either format, in bytes.
const LONGEST: usize = 16_777_216;

/// How deep containers may nest.
const DEEPEST: usize = 64;

/// The rows of the rulings.
const RULINGS: &str = include_str!("../../../tests/rulings.txt");

fn from_hex(hex: &str) -> Vec<u8> {
    if hex == "-" {
        return Vec::new();
    }
    assert!(
        hex.len().is_multiple_of(2),
        "odd count of characters: {hex}"
    );
    (0..hex.len())
        .step_by(2)
        .map(|i| u8::from_str_radix(&hex[i..i + 2], 16).unwrap())
        .collect()
}

fn to_hex(text: &[u8]) -> String {
    if text.is_empty() {
        return "-".to_string();
    }
    text.iter().fold(String::new(), |mut hex, byte| {
        write!(hex, "{byte:02X}").unwrap();
        hex
    })
}

fn put<T>(answer: Answer<T>, show: impl FnOnce(T) -> String) -> String {
    match answer {
        Ok(value) => show(value),
        Err(Refusal { number, place }) => format!("no {number} {place}"),
    }
}

fn put_one(answer: Answer<u64>) -> String {
    put(answer, |value| format!("ok {value}"))
}

fn put_two(answer: Answer<(u64, u64)>) -> String {
    put(answer, |(first, second)| format!("ok {first} {second}"))
}

/// A text as a part of the document, empty at a refusal.
fn put_text(doc: &[u8], answer: Answer<(u64, u64)>) -> String {
    let (place, length) = answer.unwrap_or((0, 0));
    to_hex(&doc[place as usize..(place + length) as usize])
}

/// The check with marks enough, all noise before; verdict and marks are those of the oracle.
fn bj_check(doc: &[u8]) -> Answer<()> {
    let noise = vec![NOISE; doc.len() / 4];
    let mut marks = noise.clone();
    let verdict = binary_json::check(doc, &mut marks);
    assert_eq!((verdict, marks), oracle::check(doc, &noise));
    verdict
}

/// The check put as the rulings put it, with the marks afterwards if a row lends its own.
fn binary_json_check(doc: &[u8], lent: Option<Vec<u8>>) -> String {
    let ok = |()| "ok".to_string();
    let Some(mut marks) = lent else {
        return put(bj_check(doc), ok);
    };
    let verdict = put(binary_json::check(doc, &mut marks), ok);
    format!("{verdict} marks={}", to_hex(&marks))
}

fn binary_json_answer(doc: &[u8], question: &str, args: &[&str]) -> String {
    use binary_json::*;
    let number_arg = |i: usize| args[i].parse::<u64>().unwrap();
    let text_arg = |i: usize| from_hex(args[i]);
    match question {
        "kind_and_size" => put_two(kind_and_size(doc, number_arg(0))),
        "element" => put_one(element(doc, number_arg(0), number_arg(1))),
        "member" => put_two(member(doc, number_arg(0), number_arg(1))),
        "entry_type" => put_one(entry_type(doc, number_arg(0))),
        "container" => put_one(container(doc, number_arg(0))),
        "string" => put_two(string(doc, number_arg(0))),
        "string_text" => put_text(doc, string(doc, number_arg(0))),
        "number" => put_one(number(doc, number_arg(0))),
        "slot" => put_two(slot(doc, number_arg(0))),
        "slot_text" => put_text(doc, slot(doc, number_arg(0))),
        "quick_lookup" => match quick_lookup(doc, number_arg(0), &text_arg(1)) {
            Ok((Some(entry), strings, keys)) => format!("ok {entry} {strings} {keys}"),
            Ok((None, strings, keys)) => format!("absent {strings} {keys}"),
            Err(Refusal { number, place }) => format!("no {number} {place} 0 0"),
        },
        "plain_scan" => put(
            plain_scan(doc, number_arg(0), &text_arg(1)),
            |found| match found {
                Some(entry) => format!("ok {entry}"),
                None => "absent".to_string(),
            },
        ),
        _ => panic!("unknown question {question}"),
    }
}

/// The FJ check put as the rulings put it; all words after the pairs must stay.
fn fractured_json_check(doc: &[u8], list: &[u8], table: &mut [u32]) -> String {
    let before = table.to_vec();
    let checked = fractured_json::check(doc, list, table);
    let pairs = 2 * checked.count as usize;
    assert_eq!(table[pairs..], before[pairs..], "a word was written");
    let mut answer = put(checked.verdict, |()| "ok".to_string());
    write!(answer, " {}", checked.count).unwrap();
    for word in &table[..pairs] {
        write!(answer, " {word}").unwrap();
    }
    answer
}

fn fractured_json_answer(
    doc: &[u8],
    list: &[u8],
    table: &mut [u32],
    count: u64,
    question: &str,
    args: &[&str],
) -> String {
    use fractured_json::*;
    let number_arg = |i: usize| args[i].parse::<u64>().unwrap();
    let text_arg = |i: usize| from_hex(args[i]);
    match question {
        "check" => fractured_json_check(doc, list, table),
        "end" => put_one(end(doc, list, table, count, number_arg(0))),
        "kind" => put(kind(doc, list, number_arg(0)), |(kind, length)| {
            let name = [
                "null", "false", "true", "number", "string", "object", "array",
            ][kind as usize];
            match length {
                Some(length) => format!("ok {name} {length}"),
                None => format!("ok {name}"),
            }
        }),
        "number" => put(number(doc, list, number_arg(0)), |(byte, bits)| {
            format!("ok {byte} {bits}")
        }),
        "string" => put_two(string(doc, list, number_arg(0))),
        "string_text" => put_text(doc, string(doc, list, number_arg(0))),
        "key" => put(key(doc, list, table, count, number_arg(0)), |key| {
            let (lender, name) = match key.lender {
                Lender::Document => (doc, "document"),
                Lender::KeyList => (list, "list"),
            };
            let (place, length) = (key.place, key.text.len());
            assert_eq!(lender[place..place + length], *key.text);
            format!("ok {name} {place} {length} {}", key.end)
        }),
        "element" => put_one(element(
            doc,
            list,
            table,
            count,
            number_arg(0),
            number_arg(1),
        )),
        "member" => put_two(member(
            doc,
            list,
            table,
            count,
            number_arg(0),
            number_arg(1),
        )),
        "first_member" => put(
            first_member(doc, list, table, count, number_arg(0), &text_arg(1)),
            |found| match found {
                Some(value) => format!("ok {value}"),
                None => "absent".to_string(),
            },
        ),
        _ => panic!("unknown question {question}"),
    }
}

/// The answer to the part of a row before its equals sign. Beside the rulings' fields an FJ row may
/// have `list`, the key list, and a row `L HEX` is the check of a key list.
fn answer_of_row(row: &str) -> String {
    let mut fields = row.split_whitespace().peekable();
    let format = fields.next().unwrap();
    let doc = from_hex(fields.next().unwrap());
    let mut list = NO_NAMES.to_vec();
    let (mut marks, mut words, mut table, mut count) = (None, None, None, 0);
    while let Some((name, value)) = fields.peek().and_then(|field| field.split_once('=')) {
        match name {
            "list" => list = from_hex(value),
            "marks" => marks = Some(from_hex(value)),
            "words" => words = Some(value.parse::<usize>().unwrap()),
            "table" => table = Some(value.split(',').map(|w| w.parse().unwrap()).collect()),
            "count" => count = value.parse().unwrap(),
            _ => panic!("unknown field {name}"),
        }
        fields.next();
    }
    if format == "L" {
        return put(fractured_json::check_list(&doc), |()| "ok".to_string());
    }
    let question = fields.next().unwrap();
    let args: Vec<&str> = fields.collect();
    if format == "B" {
        return match question {
            "check" => binary_json_check(&doc, marks),
            _ => binary_json_answer(&doc, question, &args),
        };
    }
    // Without further words, a check has a table of 4,096 keys and a question an empty one.
    let mut table: Vec<u32> = match table {
        Some(table) => table,
        None if question == "check" => vec![UNTOUCHED; words.unwrap_or(8_192)],
        None => Vec::new(),
    };
    if let Some(words) = words {
        table.resize(words, UNTOUCHED);
    }
    fractured_json_answer(&doc, &list, &mut table, count, question, &args)
}

#[test]
fn rulings() {
    let mut wrong = Vec::new();
    for row in RULINGS.lines() {
        let without_remark = row.split(" ; ").next().unwrap();
        let (asked, expected) = without_remark.rsplit_once(" = ").unwrap();
        let answer = answer_of_row(asked);
        if answer != expected {
            wrong.push(format!("{row}\n  answered {answer}"));
        }
    }
    assert!(wrong.is_empty(), "{}", wrong.join("\n"));
    assert_eq!(RULINGS.lines().count(), 243);
}

#[test]
fn specimens() {
    let a_true = "0102000021000000140000000100000001000000400300006100";
    let rows = [
        ("B 010100000000000000000000 check", "ok"),
        ("B 0101000000000000000000 check", "no 1 11"),
        ("B 020100000000000000000000 check", "no 3 0"),
        ("B 010100000300000000000000 check", "no 8 4"),
        (&format!("B {a_true} check"), "ok"),
        (&format!("B {a_true} quick_lookup 4 61"), "ok 12 1 1"),
        (&format!("B {a_true} plain_scan 4 61"), "ok 12"),
        (&format!("B {a_true} quick_lookup 4 62"), "absent 1 0"),
        (&format!("B {a_true} plain_scan 4 62"), "absent"),
        (&format!("B {}01 check", &a_true[..50]), "no 5 20"),
        (
            "B 81010000220000000402000000000000000000000000F03F check",
            "ok",
        ),
        (
            "B 81010000220000000402000000000000000000000000F03F number 8",
            "ok 4607182418800017408",
        ),
        ("B 81010000200000008500000000000000 check", "no 9 8"),
        ("F 464A016F046102 check", "ok 1 5 1"),
        ("F 464A01A0BEFD check", "ok 0"),
        ("F 464A01A0BEFD number 4", "ok 190 18446744073709551584"),
        ("F 464A01A0BEFD number 5", "ok 253 31"),
        ("F 464A01A06F0461006F57DF check", "ok 1 6 1"),
        ("F 464A01FE check", "no 36 3 0"),
        ("F 464A016F5700 check", "no 38 4 0"),
        ("F 464A0170046100046101 check", "no 39 7 1 5 1"),
    ];
    for (asked, expected) in rows {
        assert_eq!(answer_of_row(asked), expected, "{asked}");
    }
}

/// Rows worked out by hand from the papers: order of refusals, places, ends of areas, pairs.
#[test]
fn rows_by_hand() {
    let rows = [
        // Empty keys, repeated or cut off.
        ("F 464A0170030003 words=4 check", "no 39 6 1 5 0"),
        ("F 464A0170030004 words=4 check", "no 35 6 1 5 0"),
        ("F 464A0170030000 words=4 check", "no 35 6 1 5 0"),
        ("F 464A017003000080 words=4 check", "no 35 6 1 5 0"),
        ("F 464A01700300008080 words=4 check", "no 35 6 1 5 0"),
        ("F 464A0170030000808004 words=4 check", "no 37 9 1 5 0"),
        ("F 464A01700300FF words=4 check", "no 36 6 1 5 0"),
        ("F 464A01700300 words=4 check", "no 35 6 1 5 0"),
        // The same text in two spellings is met before; a full table does not hide it.
        (
            "F 464A0170046100008180006100 words=4 check",
            "no 39 7 1 5 1",
        ),
        (
            "F 464A0170046100008180006100 words=2 check",
            "no 39 7 1 5 1",
        ),
        // The text's 35 comes before 40, and 40 before anything of the value.
        ("F 464A016F0561 words=0 check", "no 35 4 0"),
        ("F 464A016F0461FE words=0 check", "no 40 4 0"),
        ("F 464A016F57FE words=4 check", "no 38 4 0"),
        ("F 464A016F0158 words=4 check", "no 38 4 0"),
        ("F 464A016F018080 words=4 check", "no 35 4 0"),
        ("F 464A016F02FFFFFF words=4 check", "no 37 7 0"),
        // A back reference spelled long.
        ("F 464A01700461000180800002 words=4 check", "ok 1 5 1"),
        // 43 before what follows; the last finite floats.
        ("F 464A01A00C000000000000F07FFE check", "no 43 4 0"),
        ("F 464A010B0000C0FF00 check", "no 43 3 0"),
        ("F 464A010BFFFF7F7F check", "ok 0"),
        ("F 464A010CFFFFFFFFFFFFEFFF check", "ok 0"),
        ("F 464A010CFFFFFFFFFFFFFF check", "no 35 3 0"),
        // Numbers.
        ("F 464A010500FF number 3", "ok 5 18446744073709551360"),
        ("F 464A0106FFFF number 3", "ok 6 65535"),
        ("F 464A010700000080 number 3", "ok 7 18446744071562067968"),
        ("F 464A010800000080 number 3", "ok 8 2147483648"),
        (
            "F 464A01090000000000000080 number 3",
            "ok 9 9223372036854775808",
        ),
        (
            "F 464A010C0000000000000080 number 3",
            "ok 12 9223372036854775808",
        ),
        ("F 464A0109FFFFFFFFFFFFFF number 3", "no 35 3"),
        ("F 464A0102 number 3", "no 21 3"),
        // Lengths.
        ("F 464A0110 kind 3", "no 35 3"),
        ("F 464A0115FFFFFF kind 3", "no 35 3"),
        ("F 464A0113FF kind 3", "ok array 255"),
        ("F 464A019D kind 3", "ok object 47"),
        ("F 464A01BD kind 3", "ok array 31"),
        // A far pair does not wrap.
        ("F 464A016F5700 table=4294967295,2 count=1 end 3", "no 38 4"),
        ("F 464A016F5700 table=2,4294967295 count=1 end 3", "no 38 4"),
        ("F 464A016F5700 table=2,4 count=1 end 3", "ok 6"),
        ("F 464A016F5700 table=2,5 count=1 end 3", "no 38 4"),
        // BinaryJson: the string must be a slot, neither the count before nor the text after them.
        (
            "B 810100002000000003020000010000008002000000 string 8",
            "no 20 8",
        ),
        (
            "B 8101000020000000030200000100000000000000 check",
            "no 5 16",
        ),
        (
            "B 810100002000000083010000010000008002000000 check",
            "no 5 16",
        ),
        ("B 81010000200000000302000001000000A002000000 check", "ok"),
        (
            "B 81010000200000000302000001000000A002000000 string 8",
            "ok 20 0",
        ),
        (
            "B 81010000200000008301000001000000A002000000 check",
            "no 9 8",
        ),
        (
            "B 81010000200000008302000001000000A002000000 check",
            "no 9 8",
        ),
        (
            "B 81010000200000002302000001000000A002000000 check",
            "no 9 8",
        ),
        (
            "B 81010000200000008302000001000000A002000000 string 8",
            "no 20 8",
        ),
        (
            "B 81010000200000008302000001000000A002000000 slot 20",
            "no 20 20",
        ),
        (
            "B 81010000200000008302000001000000A002000000 slot 12",
            "no 20 12",
        ),
        (
            "B 81010000200000008302000001000000A002000000 slot 16",
            "ok 20 0",
        ),
        // Slot 1 starts where slot 0 says that it ends: before the texts, or just at them.
        (
            "B 81010000200000008302000002000000000000002003000000 string 8",
            "no 20 8",
        ),
        (
            "B 81010000200000008302000002000000E00200002003000000 slot 20",
            "no 20 20",
        ),
        (
            "B 81010000200000008302000002000000000300002003000000 slot 20",
            "ok 24 0",
        ),
        // A container at the last word of the tree, at its end, and in the header.
        ("B 81010000200000000501000000000000 container 8", "ok 8"),
        ("B 81010000200000008501000000000000 container 8", "no 20 8"),
        ("B 81010000200000000500000000000000 container 8", "no 20 8"),
        (
            "B 81010000200000000501000000000000 container 12",
            "no 20 12",
        ),
    ];
    for (asked, expected) in rows {
        assert_eq!(answer_of_row(asked), expected, "{asked}");
    }
}

/// A key list of the names "a" and "bc".
const A_BC: &str = "00020001006102006263";

#[test]
fn key_lists() {
    let rows = [
        ("L 000000", "ok"),
        (&format!("L {A_BC}"), "ok"),
        // An empty name; a name that is a prefix of the next; a zero inside.
        ("L 0001000000", "ok"),
        ("L 00020001006102006161", "ok"),
        ("L 00020001006102006100", "ok"),
        // 51 before anything after the config byte.
        ("L 01", "no 51 0"),
        ("L 010000", "no 51 0"),
        ("L FF0100010061FF", "no 51 0"),
        // 52 at the config byte, the count, a length and a text.
        ("L -", "no 52 0"),
        ("L 00", "no 52 1"),
        ("L 0000", "no 52 1"),
        ("L 0001", "no 52 1"),
        ("L 000100", "no 52 3"),
        ("L 00010001", "no 52 3"),
        ("L 0001000100", "no 52 5"),
        ("L 000100020061", "no 52 5"),
        ("L 000200010061", "no 52 6"),
        ("L 00020001006102", "no 52 6"),
        ("L 0002000100610200", "no 52 8"),
        ("L 000200010061020062", "no 52 8"),
        ("L 000100FFFF61", "no 52 5"),
        // 53 after the last name.
        ("L 00000000", "no 53 3"),
        ("L 000100010061FF00", "no 53 6"),
        (&format!("L {A_BC}010061"), "no 53 10"),
        // 54 at the second's length, before the next name and before 53, after its own 52.
        ("L 000200010061010061", "no 54 6"),
        ("L 00020000000000", "no 54 5"),
        ("L 000300010061010062010061", "no 54 9"),
        ("L 000300010061010061", "no 54 6"),
        ("L 000200010061010061FF", "no 54 6"),
        ("L 0002000100610100", "no 52 8"),
    ];
    for (asked, expected) in rows {
        assert_eq!(answer_of_row(asked), expected, "{asked}");
    }
}

/// A bad key list refuses every call, with whatever document, and the check writes no pair.
#[test]
fn bad_key_lists() {
    let calls = [
        "end 3",
        "kind 3",
        "number 3",
        "string 3",
        "key 4",
        "element 3 0",
        "member 3 0",
        "first_member 3 61",
    ];
    let lists = [
        ("01", "no 51 0"),
        ("-", "no 52 0"),
        ("000100010061FF", "no 53 6"),
        ("000200010061010061", "no 54 6"),
    ];
    for (list, refusal) in lists {
        for doc in ["-", "464A01", "474A0200", "464A016F046102"] {
            assert_eq!(
                answer_of_row(&format!("F {doc} list={list} check")),
                format!("{refusal} 0")
            );
            for call in calls {
                let asked = format!("F {doc} list={list} {call}");
                assert_eq!(answer_of_row(&asked), refusal, "{asked}");
            }
        }
    }
}

/// A row of an FJ document, its bytes after the header, with the names "a" and "bc".
fn with_names(value: &str, asked: &str) -> String {
    answer_of_row(&format!("F 464A01{value} list={A_BC} {asked}"))
}

#[test]
fn global_indices() {
    // Under, at and past the count of 2, tiny and with a v_uint16 of one, two and three bytes.
    let spellings = [
        ["AC", "AD", "FE"],
        ["0201", "0202", "027F"],
        ["028100", "028200", "02FF7F"],
        ["02818000", "02828000", "02FFFF03"],
    ];
    for [under, at, past] in spellings {
        let end = 4 + under.len() / 2;
        assert_eq!(with_names(&format!("6F{under}02"), "check"), "ok 0");
        assert_eq!(
            with_names(&format!("6F{under}02"), "end 3"),
            format!("ok {}", end + 1)
        );
        assert_eq!(
            with_names(&format!("6F{under}02"), "key 4"),
            format!("ok list 8 2 {end}")
        );
        for index in [at, past] {
            let doc = format!("6F{index}02");
            assert_eq!(with_names(&doc, "check"), "no 38 4 0");
            for asked in ["end 3", "member 3 0", "first_member 3 61", "key 4"] {
                assert_eq!(with_names(&doc, asked), "no 38 4", "{doc} {asked}");
            }
        }
    }
    assert_eq!(with_names("6F02", "check"), "no 35 4 0");
    assert_eq!(with_names("6F028180", "check"), "no 35 4 0");
    assert_eq!(with_names("6F02818004", "check"), "no 37 7 0");
}

#[test]
fn global_keys() {
    let rows = [
        // An immediate text may equal a name, and a global key may occur twice.
        ("70AB00046102", "check", "ok 1 7 1"),
        ("70046100AB02", "check", "ok 1 5 1"),
        ("70AB00AB02", "check", "ok 0"),
        ("71046100AB02046100", "check", "no 39 9 1 5 1"),
        // A global key has no number of its own.
        ("70AB005702", "check", "no 38 6 0"),
        ("71AB000461005702", "check", "ok 1 7 1"),
        ("6FAB", "check", "no 35 5 0"),
        // The first member with the name, whatever kind of key it has.
        ("70AB00046102", "first_member 3 61", "ok 5"),
        ("70046100AB02", "first_member 3 61", "ok 6"),
        ("70AC00AB02", "first_member 3 61", "ok 7"),
        ("70AC00AB02", "first_member 3 6263", "ok 5"),
        ("70AC00AB02", "first_member 3 62", "absent"),
        ("70AD00AB02", "first_member 3 61", "no 38 4"),
        ("70AB00AD02", "first_member 3 61", "ok 5"),
        ("70AB00AD02", "first_member 3 6263", "no 38 6"),
        ("70AB00AC02", "member 3 1", "ok 6 7"),
        ("A06FAB0001", "element 3 1", "ok 7"),
        ("70AB00AC02", "end 3", "ok 8"),
    ];
    for (value, asked, expected) in rows {
        assert_eq!(with_names(value, asked), expected, "{value} {asked}");
    }
}

#[test]
fn keys_asked_for() {
    let rows = [
        // Immediate keys, tiny and with a v_uint16; the value is not read.
        ("464A016F046102 key 4", "ok document 5 1 6"),
        ("464A016F0461 key 4", "ok document 5 1 6"),
        ("464A016F00016102 key 4", "ok document 6 1 7"),
        ("464A016F008180006102 key 4", "ok document 8 1 9"),
        ("464A016F0300 key 4", "ok document 5 0 5"),
        // Back references go by the key table and count handed in.
        (
            "464A01700461005701 table=5,1 count=1 key 7",
            "ok document 5 1 8",
        ),
        (
            "464A017004610001808000 table=5,1 count=1 key 7",
            "ok document 5 1 11",
        ),
        ("464A016F5700 table=0,2 count=1 key 4", "ok document 0 2 5"),
        ("464A016F5700 table=6,0 count=1 key 4", "ok document 6 0 5"),
        ("464A01700461005701 key 7", "no 38 7"),
        ("464A016F5700 table=7,0 count=1 key 4", "no 38 4"),
        ("464A016F5700 table=4294967295,2 count=1 key 4", "no 38 4"),
        ("464A016F5700 table=4,1,9 count=2 key 4", "no 38 4"),
        ("464A016F5800 table=4,1 count=1 key 4", "no 38 4"),
        // Without names no global index is found.
        ("464A016FAB00 key 4", "no 38 4"),
        ("464A016F02808000 key 4", "no 38 4"),
        // 39 and 40 belong to the check alone.
        ("464A0170046100046101 key 7", "ok document 8 1 9"),
        // 31 to 34, 20, then the key's own order.
        ("464A01 key 4", "no 31 3"),
        ("474A0200 key 4", "no 33 0"),
        ("464A0200 key 2", "no 34 2"),
        ("464A016F046102 key 2", "no 20 2"),
        ("464A016F046102 key 7", "no 35 7"),
        (
            "464A016F046102 key 18446744073709551615",
            "no 35 18446744073709551615",
        ),
        ("464A016FFF key 4", "no 36 4"),
        ("464A016F00 key 4", "no 35 4"),
        ("464A016F0080 key 4", "no 35 4"),
        ("464A016F018080 key 4", "no 35 4"),
        ("464A016F00808004 key 4", "no 37 7"),
        ("464A016F01808004 key 4", "no 37 7"),
        ("464A016F02808004 key 4", "no 37 7"),
        ("464A016F0561 key 4", "no 35 4"),
        ("464A016F000261 key 4", "no 35 4"),
        // Any byte is read as a key byte: 6F is back reference 24.
        ("464A016F046102 key 3", "no 38 3"),
    ];
    for (asked, expected) in rows {
        assert_eq!(answer_of_row(&format!("F {asked}")), expected, "{asked}");
    }
}

/// A key list of these names.
fn key_list(names: &[Vec<u8>]) -> Vec<u8> {
    let mut list = vec![0];
    list.extend((names.len() as u16).to_le_bytes());
    for name in names {
        list.extend((name.len() as u16).to_le_bytes());
        list.extend(name);
    }
    list
}

/// 65,535 names, and a name of 65,535 bytes.
#[test]
fn largest_key_lists() {
    let mut names: Vec<Vec<u8>> = (0..65_535_u16).map(|k| k.to_le_bytes().to_vec()).collect();
    let list = key_list(&names);
    assert_eq!(fractured_json::check_list(&list), Ok(()));
    let ask = |third| {
        let doc = fj_document(&[&[0x70, 0x02, 0xFE, 0xFF, 3, 0, 0x02, third, 0xFF, 3, 0]]);
        let checked = fractured_json::check(&doc, &list, &mut []);
        assert_eq!(checked.count, 0);
        checked.verdict
    };
    assert_eq!(ask(0xFE), Ok(()));
    assert_eq!(ask(0xFF), refuse(38, 9));
    // The last name equals the first.
    names[65_534] = names[0].clone();
    let list = key_list(&names);
    let last = list.len() as u64 - 4;
    assert_eq!(fractured_json::check_list(&list), refuse(54, last));
    assert_eq!(
        fractured_json::check_list(&list[..last as usize]),
        refuse(52, last)
    );

    let mut long = vec![b'k'; 65_535];
    let list = key_list(&[long.clone(), vec![b'k']]);
    let doc = fj_document(&[&[0x70, 0xAB, 0, 0xAC, 0]]);
    assert_eq!(fractured_json::check_list(&list), Ok(()));
    let found = fractured_json::first_member(&doc, &list, &[], 0, 3, &long);
    assert_eq!(found, Ok(Some(5)));
    let key = fractured_json::key(&doc, &list, &[], 0, 6).unwrap();
    assert_eq!((key.place, key.text, key.end), (65_542, &b"k"[..], 7));
    assert_eq!(
        fractured_json::check_list(&list[..5 + 65_534]),
        refuse(52, 5)
    );
    long.pop();
    let found = fractured_json::first_member(&doc, &list, &[], 0, 3, &long);
    assert_eq!(found, Ok(None));
}

fn word(low: u32, high: u32) -> [u8; 4] {
    (high << 5 | low).to_le_bytes()
}

/// A BinaryJson document with these tree words, texts and number bytes.
fn binary_json_document(tree: &[[u8; 4]], texts: &[&[u8]], numbers: &[u8]) -> Vec<u8> {
    let string_index = 4 + 4 * tree.len() as u32;
    let mut doc = word(1, string_index).to_vec();
    doc.extend(tree.concat());
    doc.extend((texts.len() as u32).to_le_bytes());
    let mut end = string_index + 4 + 4 * texts.len() as u32;
    for text in texts {
        end += text.len() as u32 + 1;
        doc.extend(word(0, end));
    }
    for text in texts {
        doc.extend(*text);
        doc.push(0);
    }
    doc.extend(numbers);
    doc
}

fn refuse<T>(number: u32, place: u64) -> Answer<T> {
    Err(Refusal { number, place })
}

/// The check with a table of this many words, and what the table holds afterwards.
fn fj_check(doc: &[u8], list: &[u8], words: usize) -> (fractured_json::Checked, Vec<u32>) {
    let mut table = vec![UNTOUCHED; words];
    let checked = fractured_json::check(doc, list, &mut table);
    let pairs = 2 * checked.count as usize;
    assert!(table[pairs..].iter().all(|&word| word == UNTOUCHED));
    (checked, table)
}

fn fj_document(value: &[&[u8]]) -> Vec<u8> {
    let mut doc = b"FJ\x01".to_vec();
    doc.extend(value.concat());
    doc
}

#[test]
fn longest_documents() {
    let over = refuse(2, LONGEST as u64 + 1);
    // BinaryJson: an empty array, one text, and numbers up to the end.
    let mut doc = binary_json_document(&[word(0, 0)], &[b"abc"], &[]);
    assert_eq!(doc.len(), 20);
    doc.resize(LONGEST + 4, 0);
    assert_eq!(bj_check(&doc), refuse(2, LONGEST as u64 + 4));
    assert_eq!(bj_check(&doc[..LONGEST + 1]), over);
    assert_eq!(bj_check(&doc[..LONGEST]), refuse(7, 20));
    assert_eq!(bj_check(&doc[..LONGEST - 4]), Ok(()));
    let mut doc = binary_json_document(&[word(0, 0)], &[b"abcdefg"], &[]);
    doc.resize(LONGEST + 1, 0);
    assert_eq!(bj_check(&doc), over);
    assert_eq!(
        binary_json::kind_and_size(&doc, 4),
        refuse(2, LONGEST as u64 + 1)
    );
    assert_eq!(bj_check(&doc[..LONGEST]), Ok(()));
    assert_eq!(binary_json::kind_and_size(&doc[..LONGEST], 4), Ok((0, 0)));

    // FJ: one string with a 32-bit length.
    for (length, verdict) in [
        (LONGEST, Ok(())),
        (LONGEST + 1, refuse(32, LONGEST as u64 + 1)),
    ] {
        let doc = fj_document(&[&[0x0F], &len32(length - 8), &vec![b'x'; length - 8]]);
        assert_eq!(doc.len(), length);
        let (checked, _) = fj_check(&doc, NO_NAMES, 0);
        assert_eq!(checked.verdict, verdict);
        assert_eq!(fractured_json::kind(&doc, NO_NAMES, 3).map(|_| ()), verdict);
    }
}

/// Four bytes of a length.
fn len32(length: usize) -> [u8; 4] {
    (length as u32).to_le_bytes()
}

/// Around the last length that two bytes can say.
const AROUND_16_BITS: [usize; 4] = [65_534, 65_535, 65_536, 65_537];

#[test]
fn strings_of_a_four_byte_length() {
    for length in AROUND_16_BITS.into_iter().chain([1 << 20]) {
        let text: Vec<u8> = (0..length).map(|i| (i % 251) as u8).collect();
        // The number after the string tells where it ends.
        let doc = fj_document(&[&[0xA0, 0x0F], &len32(length), &text, &[0x04, 7]]);
        assert_eq!(fj_check(&doc, NO_NAMES, 0).0.verdict, Ok(()));
        let after = 9 + length as u64;
        let kind = fractured_json::kind(&doc, NO_NAMES, 4);
        assert_eq!(kind, Ok((4, Some(length as u64))));
        let string = fractured_json::string(&doc, NO_NAMES, 4);
        assert_eq!(string, Ok((9, length as u64)));
        let element = fractured_json::element(&doc, NO_NAMES, &[], 0, 3, 1);
        assert_eq!(element, Ok(after));
        assert_eq!(fractured_json::number(&doc, NO_NAMES, after), Ok((4, 7)));
        let end = fractured_json::end(&doc, NO_NAMES, &[], 0, 3);
        assert_eq!(end, Ok(after + 2));
        // One byte of the text missing, and one too many.
        let cut = fj_document(&[&[0x0F], &len32(length), &text[1..]]);
        assert_eq!(fj_check(&cut, NO_NAMES, 0).0.verdict, refuse(35, 3));
        let more = fj_document(&[&[0x0F], &len32(length), &text, &[0]]);
        let verdict = fj_check(&more, NO_NAMES, 0).0.verdict;
        assert_eq!(verdict, refuse(42, 8 + length as u64));
    }
}

#[test]
fn arrays_of_a_four_byte_length() {
    for n in AROUND_16_BITS.into_iter().chain([1 << 20]) {
        let last = n as u64 - 1;
        // Null in each element but the last.
        let array = fj_document(&[&[0x15], &len32(n), &vec![0x00; n - 1], &[0xFD]]);
        assert_eq!(fj_check(&array, NO_NAMES, 0).0.verdict, Ok(()));
        let kind = fractured_json::kind(&array, NO_NAMES, 3);
        assert_eq!(kind, Ok((6, Some(n as u64))));
        let element = |i| fractured_json::element(&array, NO_NAMES, &[], 0, 3, i);
        assert_eq!(element(last), Ok(8 + last));
        assert_eq!(element(last + 1), refuse(22, 3));
        let number = fractured_json::number(&array, NO_NAMES, 8 + last);
        assert_eq!(number, Ok((0xFD, 31)));
        let end = fractured_json::end(&array, NO_NAMES, &[], 0, 3);
        assert_eq!(end, Ok(8 + n as u64));
        let cut = &array[..array.len() - 1];
        let verdict = fj_check(cut, NO_NAMES, 0).0.verdict;
        assert_eq!(verdict, refuse(35, 8 + last));
    }
}

#[test]
fn objects_of_a_four_byte_length() {
    for n in AROUND_16_BITS.into_iter().chain([1 << 18]) {
        // "a" in each member but the last, which is "b".
        let mut object = fj_document(&[&[0x12], &len32(n), &[0x04, b'a', 0x00]]);
        object.extend([0x57, 0x00].repeat(n - 2));
        object.extend([0x04, b'b', 0xFD]);
        let (checked, table) = fj_check(&object, NO_NAMES, 4);
        let key = 11 + 2 * (n as u64 - 2);
        assert_eq!((checked.verdict, checked.count), (Ok(()), 2));
        assert_eq!(table, [9, 1, key as u32 + 1, 1]);
        let kind = fractured_json::kind(&object, NO_NAMES, 3);
        assert_eq!(kind, Ok((5, Some(n as u64))));
        let member = |j| fractured_json::member(&object, NO_NAMES, &table, 2, 3, j);
        assert_eq!(member(n as u64 - 1), Ok((key, key + 2)));
        assert_eq!(member(n as u64), refuse(22, 3));
        let found = |key| fractured_json::first_member(&object, NO_NAMES, &table, 2, 3, key);
        assert_eq!(found(&b"b"[..]), Ok(Some(key + 2)));
        assert_eq!(found(b"c"), Ok(None));
        // A back reference to a key past 65,536, whose pair says so.
        object.splice(3..3, [0xA0]);
        object.extend([0x6F, 0x58, 0x02]);
        let (checked, table) = fj_check(&object, NO_NAMES, 4);
        assert_eq!((checked.verdict, checked.count), (Ok(()), 2));
        let second = key + 4;
        let found = fractured_json::first_member(&object, NO_NAMES, &table, 2, second, b"b");
        assert_eq!(found, Ok(Some(second + 2)));
    }
}

/// A tree, slots, texts and numbers that each take over 65,536 bytes.
#[test]
fn far_slots_and_numbers() {
    let n = 20_000_u32;
    let texts: Vec<[u8; 4]> = (0..n).map(u32::to_be_bytes).collect();
    let texts: Vec<&[u8]> = texts.iter().map(|text| &text[..]).collect();
    let numbers: Vec<u8> = (0..n)
        .flat_map(|k| f64::from(k).to_bits().to_le_bytes())
        .collect();
    // An array of an object, and of all the strings, last first, and numbers.
    let index = 4 + 4 + 4 * (1 + 2 * n) + 4 + 8 * n;
    let (first_slot, first_number) = (index + 4, index + 4 + 4 * n + 5 * n);
    let slot = |k: u32| first_slot + 4 * k;
    let number = |k: u32| first_number + 8 * k;
    let object = 4 + 4 + 4 * (1 + 2 * n);
    let mut tree = vec![word(0, 1 + 2 * n), word(5, object)];
    tree.extend((0..n).rev().map(|k| word(3, slot(k))));
    tree.extend((0..n).map(|k| word(4, number(k))));
    tree.push(word(1, n));
    tree.extend((0..n).map(|k| slot(k).to_le_bytes()));
    tree.extend((0..n).map(|k| word(4, number(k))));
    let doc = binary_json_document(&tree, &texts, &numbers);
    assert_eq!(doc.len() as u32, number(n));
    assert_eq!(bj_check(&doc), Ok(()));

    let object = u64::from(object);
    let entry = object + 4 + 4 * u64::from(n);
    assert_eq!(binary_json::container(&doc, 8), Ok(object));
    for k in [0, 1, 16_383, 16_384, n - 2, n - 1] {
        let far = u64::from(k);
        let text = u64::from(first_slot + 4 * n + 5 * k);
        let string = binary_json::element(&doc, 4, 1 + u64::from(n - 1 - k)).unwrap();
        assert_eq!(string, 12 + 4 * u64::from(n - 1 - k));
        assert_eq!(binary_json::string(&doc, string), Ok((text, 4)));
        assert_eq!(binary_json::slot(&doc, slot(k).into()), Ok((text, 4)));
        let member = binary_json::member(&doc, object, far);
        assert_eq!(member, Ok((slot(k).into(), entry + 4 * far)));
        let bits = binary_json::number(&doc, entry + 4 * far);
        assert_eq!(bits, Ok(f64::from(k).to_bits()));
        let key = &k.to_be_bytes();
        let scan = binary_json::plain_scan(&doc, object, key);
        assert_eq!(scan, Ok(Some(entry + 4 * far)));
        let quick = binary_json::quick_lookup(&doc, object, key);
        assert_eq!(quick.map(|(found, _, _)| found), scan);
    }
    // 20,000 items are halved 14 times to their end.
    let absent = binary_json::quick_lookup(&doc, object, &n.to_be_bytes());
    assert_eq!(absent, Ok((None, 14, 0)));

    // The last KeyEntry, Entry, slot, text and number spoilt.
    let spoilt = |at: u32, bytes: &[u8]| {
        let mut doc = doc.clone();
        for (byte, changed) in doc[at as usize..].iter_mut().zip(bytes) {
            *byte ^= changed;
        }
        bj_check(&doc)
    };
    let (key_entry, last) = (entry - 4, entry + 4 * u64::from(n) - 4);
    assert_eq!(spoilt(key_entry as u32, &[4]), refuse(11, key_entry));
    assert_eq!(spoilt(key_entry as u32, &[1]), refuse(11, key_entry));
    assert_eq!(spoilt(last as u32, &[32]), refuse(9, last));
    assert_eq!(spoilt(last as u32 + 3, &[0x80]), refuse(9, last));
    let slot = slot(n - 1);
    assert_eq!(spoilt(slot, &[1]), refuse(5, slot.into()));
    assert_eq!(spoilt(first_number - 1, &[1]), refuse(5, slot.into()));
    assert_eq!(spoilt(first_number - 2, &[1]), refuse(6, slot.into()));
    // 19,999 starts with 40D3, no number with 7FF7; the object uses it before the array does.
    assert_eq!(spoilt(number(n) - 2, &[0x24, 0x3F]), refuse(10, last));
}

#[test]
fn deepest_documents() {
    let over = refuse(12, 4 + 8 * DEEPEST as u64);
    for (depth, verdict) in [(DEEPEST, Ok(())), (DEEPEST + 1, over)] {
        let mut tree = Vec::new();
        for level in 1..depth as u32 {
            tree.push(word(0, 1));
            tree.push(word(5, 4 + 8 * level));
        }
        // The last container, and none where one is named: 12 comes before 8.
        assert_eq!(
            bj_check(&binary_json_document(&tree, &[], &[])),
            verdict.and(refuse(8, 4 + 8 * (depth as u64 - 1)))
        );
        tree.push(word(0, 0));
        assert_eq!(bj_check(&binary_json_document(&tree, &[], &[])), verdict);
    }
    let over = refuse(41, 3 + DEEPEST as u64);
    for (depth, verdict) in [(DEEPEST, Ok(())), (DEEPEST + 1, over)] {
        let doc = fj_document(&[&vec![0x9F; depth - 1], &[0x9E]]);
        assert_eq!(fj_check(&doc, NO_NAMES, 0).0.verdict, verdict);
        let doc = fj_document(&[&vec![0x9F; depth - 1], &[0x6E]]);
        assert_eq!(fj_check(&doc, NO_NAMES, 0).0.verdict, verdict);
    }
}

/// The object at the cursor is container 1, so its first value may hold 63 more.
#[test]
fn nesting_before_the_member_sought() {
    let object = |nested: usize| {
        let value = [vec![0x9F; nested - 1], vec![0x9E]].concat();
        fj_document(&[&[0x70, 0x04, b'a'], &value, &[0x04, b'b', 0x00]])
    };
    // The value of "a" starts at 6.
    let after = 6 + DEEPEST as u64;
    let doc = object(DEEPEST - 1);
    assert_eq!(
        fractured_json::member(&doc, NO_NAMES, &[], 0, 3, 1),
        Ok((after - 1, after + 1))
    );
    let found = fractured_json::first_member(&doc, NO_NAMES, &[], 0, 3, b"b");
    assert_eq!(found, Ok(Some(after + 1)));
    let doc = object(DEEPEST);
    assert_eq!(
        fractured_json::member(&doc, NO_NAMES, &[], 0, 3, 1),
        refuse(41, after - 1)
    );
    let found = fractured_json::first_member(&doc, NO_NAMES, &[], 0, 3, b"b");
    assert_eq!(found, refuse(41, after - 1));
    assert_eq!(fractured_json::end(&doc, NO_NAMES, &[], 0, 6), Ok(after));
}

#[test]
fn strings_of_87_and_88_bytes() {
    let text = [b's'; 88];
    let doc = fj_document(&[&[0x6D], &text[..87]]);
    assert_eq!(fj_check(&doc, NO_NAMES, 0).0.verdict, Ok(()));
    assert_eq!(fractured_json::string(&doc, NO_NAMES, 3), Ok((4, 87)));
    assert_eq!(fj_check(&doc[..90], NO_NAMES, 0).0.verdict, refuse(35, 3));
    let doc = fj_document(&[&[0x0D, 88], &text]);
    assert_eq!(fj_check(&doc, NO_NAMES, 0).0.verdict, Ok(()));
    assert_eq!(fractured_json::string(&doc, NO_NAMES, 3), Ok((5, 88)));
    // 6E is an empty object, so the texts after it are too many.
    let doc = fj_document(&[&[0x6E], &text]);
    assert_eq!(fj_check(&doc, NO_NAMES, 0).0.verdict, refuse(42, 4));
    for length in [87_u64, 88] {
        let content = &text[..length as usize];
        let doc = binary_json_document(&[word(0, 1), word(3, 16)], &[content], &[]);
        assert_eq!(bj_check(&doc), Ok(()));
        assert_eq!(binary_json::string(&doc, 8), Ok((20, length)));
    }
}

#[test]
fn keys_of_83_and_84_bytes() {
    let text = [b'k'; 84];
    let doc = fj_document(&[&[0x6F, 0x56], &text[..83], &[0x00]]);
    let (checked, table) = fj_check(&doc, NO_NAMES, 3);
    assert_eq!((checked.verdict, checked.count), (Ok(()), 1));
    assert_eq!(table[..2], [5, 83]);
    assert_eq!(
        fractured_json::member(&doc, NO_NAMES, &[], 0, 3, 0),
        Ok((4, 88))
    );
    let doc = fj_document(&[&[0x6F, 0x00, 84], &text, &[0x00]]);
    let (checked, table) = fj_check(&doc, NO_NAMES, 2);
    assert_eq!((checked.verdict, checked.count), (Ok(()), 1));
    assert_eq!(table[..2], [6, 84]);
    assert_eq!(
        fractured_json::member(&doc, NO_NAMES, &[], 0, 3, 0),
        Ok((4, 90))
    );
    // 57 is a back reference, not a key of 84 bytes.
    let doc = fj_document(&[&[0x6F, 0x57], &text, &[0x00]]);
    assert_eq!(fj_check(&doc, NO_NAMES, 2).0.verdict, refuse(38, 4));
}

#[test]
fn index_ffff03_and_ffff04() {
    for (key_byte, number, place) in [(0x00, 35, 4), (0x01, 38, 4), (0x02, 38, 4)] {
        let doc = fj_document(&[&[0x6F, key_byte, 0xFF, 0xFF, 0x03, 0x00]]);
        assert_eq!(fj_check(&doc, NO_NAMES, 2).0.verdict, refuse(number, place));
        let doc = fj_document(&[&[0x6F, key_byte, 0xFF, 0xFF, 0x04, 0x00]]);
        assert_eq!(fj_check(&doc, NO_NAMES, 2).0.verdict, refuse(37, 7));
    }
    // The longest key, asked for and found again by a back reference; one byte of it missing.
    let text = [b'k'; 65_535];
    let head = [0x70, 0x00, 0xFF, 0xFF, 0x03];
    let doc = fj_document(&[&head, &text, &[0x00, 0x57, 0x01]]);
    let (checked, table) = fj_check(&doc, NO_NAMES, 2);
    assert_eq!((checked.verdict, checked.count), (Ok(()), 1));
    assert_eq!(table, [8, 65_535]);
    let value = 8 + 65_535;
    let key = fractured_json::key(&doc, NO_NAMES, &table, 1, value + 1).unwrap();
    assert_eq!((key.place, key.text), (8, &text[..]));
    let found = |key| fractured_json::first_member(&doc, NO_NAMES, &table, 1, 3, key);
    assert_eq!(found(&text), Ok(Some(value)));
    assert_eq!(found(&text[1..]), Ok(None));
    let doc = fj_document(&[&head, &text[1..]]);
    assert_eq!(fj_check(&doc, NO_NAMES, 2).0.verdict, refuse(35, 4));
    // Index 65,535 in a table handed in: over 4,096 keys there is no room.
    let doc = fj_document(&[&[0x6F, 0x01, 0xFF, 0xFF, 0x03, 0x00]]);
    let table = vec![0; 131_072];
    assert_eq!(
        fractured_json::end(&doc, NO_NAMES, &table, 65_536, 3),
        refuse(38, 4)
    );
}

#[test]
fn full_key_table_and_one_key_more() {
    let object = |keys: usize| {
        let mut doc = fj_document(&[&[0x11], &(keys as u16).to_le_bytes()]);
        for k in 0..keys {
            doc.extend([0x05, k as u8, (k >> 8) as u8, 0x02]);
        }
        doc
    };
    // A table larger than 4,096 keys is used only so far.
    for words in [8_192, 8_193, 10_000] {
        let (checked, table) = fj_check(&object(4_096), NO_NAMES, words);
        assert_eq!((checked.verdict, checked.count), (Ok(()), 4_096));
        assert_eq!(table[8_190..8_192], [7 + 4 * 4_095, 2]);
        let (checked, _) = fj_check(&object(4_097), NO_NAMES, words);
        assert_eq!(checked.verdict, refuse(40, 6 + 4 * 4_096));
        assert_eq!(checked.count, 4_096);
    }
    for (words, room) in [(0, 0), (1, 0), (2, 1), (3, 1), (8, 4), (9, 4)] {
        let (checked, _) = fj_check(&object(room), NO_NAMES, words);
        assert_eq!((checked.verdict, checked.count), (Ok(()), room as u64));
        let (checked, _) = fj_check(&object(room + 1), NO_NAMES, words);
        assert_eq!(checked.verdict, refuse(40, 6 + 4 * room as u64));
        assert_eq!(checked.count, room as u64);
    }
    // The last key of a full table is found by its index, and a count over 4,096 is over the room.
    let mut doc = object(4_096);
    doc[4..6].copy_from_slice(&4_097_u16.to_le_bytes());
    doc.extend([0x01, 0xFF, 0x1F, 0x02]);
    let (checked, table) = fj_check(&doc, NO_NAMES, 8_194);
    assert_eq!((checked.verdict, checked.count), (Ok(()), 4_096));
    let last = doc.len() as u64 - 4;
    let ask = |count| fractured_json::member(&doc, NO_NAMES, &table, count, 3, 4_096);
    assert_eq!(ask(4_096), Ok((last, last + 3)));
    assert_eq!(ask(4_095), refuse(38, last));
    assert_eq!(ask(4_097), refuse(38, last));
    assert_eq!(ask(u64::MAX), refuse(38, last));
}

#[test]
fn empty_documents_and_far_cursors() {
    let far = [
        0,
        1,
        2,
        3,
        4,
        1 << 31,
        1 << 32,
        (1 << 32) + 4,
        1 << 62,
        u64::MAX - 4,
        u64::MAX - 3,
        u64::MAX,
    ];
    assert_eq!(bj_check(&[]), refuse(1, 0));
    assert_eq!(fj_check(&[], NO_NAMES, 2).0.verdict, refuse(31, 0));
    let array = from_hex("010100000000000000000000");
    let objects = from_hex("464A01A06F0461006F57DF");
    for &cursor in &far {
        assert_eq!(binary_json::slot(&[], cursor), refuse(1, 0));
        assert_eq!(fractured_json::kind(&[], NO_NAMES, cursor), refuse(31, 0));
        if cursor != 4 {
            assert_eq!(
                binary_json::kind_and_size(&array, cursor),
                refuse(20, cursor)
            );
            assert_eq!(binary_json::entry_type(&array, cursor), refuse(20, cursor));
        }
        assert_eq!(binary_json::slot(&array, cursor), refuse(20, cursor));
        if cursor < 3 {
            assert_eq!(
                fractured_json::kind(&objects, NO_NAMES, cursor),
                refuse(20, cursor)
            );
        } else if cursor > 10 {
            assert_eq!(
                fractured_json::kind(&objects, NO_NAMES, cursor),
                refuse(35, cursor)
            );
            assert_eq!(
                fractured_json::end(&objects, NO_NAMES, &[], 0, cursor),
                refuse(35, cursor)
            );
        }
        if cursor > 1 {
            assert_eq!(binary_json::element(&array, 4, cursor), refuse(22, 4));
            assert_eq!(
                fractured_json::element(&objects, NO_NAMES, &[], 0, 3, cursor),
                refuse(22, 3)
            );
            assert_eq!(
                fractured_json::member(&objects, NO_NAMES, &[], 0, 4, cursor),
                refuse(22, 4)
            );
        }
    }
}

/// A small xorshift generator: the same numbers in every run.
struct Random(u64);

impl Random {
    fn below(&mut self, bound: usize) -> usize {
        self.0 ^= self.0 << 13;
        self.0 ^= self.0 >> 7;
        self.0 ^= self.0 << 17;
        (self.0 >> 11) as usize % bound
    }

    /// The document with a few bytes changed, removed, added or swapped for one that often matters.
    fn spoil(&mut self, doc: &[u8]) -> Vec<u8> {
        let mut doc = doc.to_vec();
        for _ in 0..self.below(4) {
            if doc.is_empty() {
                break;
            }
            let at = self.below(doc.len());
            match self.below(6) {
                0 => doc[at] = self.below(256) as u8,
                1 => doc[at] ^= 1 << self.below(8),
                2 => doc[at] = doc[at].wrapping_add(4),
                3 => doc.truncate(at),
                4 => doc.insert(at, [0x00, 0x04, 0x57, 0x9F, 0xFF][self.below(5)]),
                _ => doc[at] = doc[self.below(doc.len())],
            }
        }
        doc
    }
}

/// Documents of the rulings in one format.
fn ruling_documents(format: &str) -> Vec<Vec<u8>> {
    let mut documents: Vec<_> = RULINGS
        .lines()
        .filter_map(|row| row.strip_prefix(format)?.split_whitespace().next())
        .map(from_hex)
        .collect();
    documents.sort();
    documents.dedup();
    documents
}

/// Every question is answered for any bytes, and in an accepted document both lookups agree.
#[test]
fn spoilt_binary_json() {
    use binary_json::*;
    let documents = ruling_documents("B");
    let mut random = Random(1);
    let mut accepted = 0;
    for _ in 0..20_000 {
        let doc = random.spoil(&documents[random.0 as usize % documents.len()]);
        let good = bj_check(&doc).is_ok();
        accepted += u32::from(good);
        let texts: Vec<&[u8]> = (0..doc.len() as u64)
            .filter_map(|offset| slot(&doc, offset).ok())
            .map(|(place, length)| &doc[place as usize..][..length as usize])
            .chain([&b""[..], b"a", b"zz"])
            .collect();
        let containers: Vec<u64> = (0..doc.len() as u64)
            .filter_map(|cursor| container(&doc, cursor).ok())
            .chain([4])
            .collect();
        for cursor in 0..doc.len() as u64 + 2 {
            let kind = kind_and_size(&doc, cursor);
            for i in [0, 1, 2, u64::MAX] {
                let (element, member) = (element(&doc, cursor, i), member(&doc, cursor, i));
                if let Ok((kind, size)) = kind {
                    assert_eq!(element.is_ok(), kind != 1 && i < size);
                    assert!(member.is_err() || (kind == 1 && i < size));
                }
            }
            if let Ok(offset) = container(&doc, cursor) {
                assert!(!good || kind_and_size(&doc, offset).is_ok());
                assert_eq!(entry_type(&doc, cursor), Ok(5));
            }
            if string(&doc, cursor).is_ok() {
                assert_eq!(entry_type(&doc, cursor), Ok(3));
            }
            if let Ok(bits) = number(&doc, cursor) {
                assert!(f64::from_bits(bits).is_finite());
                assert_eq!(entry_type(&doc, cursor), Ok(4));
            }
            for text in &texts {
                let quick = quick_lookup(&doc, cursor, text);
                let scan = plain_scan(&doc, cursor, text);
                if good && containers.contains(&cursor) {
                    assert_eq!(quick.map(|(found, _, _)| found), scan);
                }
            }
        }
    }
    assert!(accepted > 1_000, "only {accepted} accepted");
}

/// Every question is answered for any bytes, and the check and the questions agree.
#[test]
fn spoilt_fractured_json() {
    use fractured_json::*;
    let documents = ruling_documents("F");
    let names = from_hex(A_BC);
    let mut random = Random(2);
    let mut accepted = 0;
    for trial in 0..20_000 {
        let doc = random.spoil(&documents[random.0 as usize % documents.len()]);
        let list = match trial % 4 {
            0 => NO_NAMES.to_vec(),
            1 => random.spoil(&names),
            _ => names.clone(),
        };
        let (checked, table) = fj_check(&doc, &list, 2 * random.below(4));
        let count = checked.count;
        if let Err(refusal) = check_list(&list) {
            assert_eq!((checked.verdict, count), (Err(refusal), 0));
            assert_eq!(kind(&doc, &list, 3), Err(refusal));
            assert_eq!(key(&doc, &list, &table, count, 4), Err(refusal));
            continue;
        }
        if checked.verdict.is_ok() {
            accepted += 1;
            assert_eq!(end(&doc, &list, &table, count, 3), Ok(doc.len() as u64));
        }
        for cursor in 0..doc.len() as u64 + 2 {
            let whole = end(&doc, &list, &table, count, cursor);
            let kind = kind(&doc, &list, cursor);
            assert!(whole.is_err() || kind.is_ok());
            for i in [0, 1, 2, u64::MAX] {
                let element = element(&doc, &list, &table, count, cursor, i);
                let member = member(&doc, &list, &table, count, cursor, i);
                if let Ok((key_byte, value)) = member {
                    let key = key(&doc, &list, &table, count, key_byte).unwrap();
                    assert_eq!(key.end as u64, value);
                    let found = first_member(&doc, &list, &table, count, cursor, key.text);
                    assert!(found.unwrap().is_some_and(|first| first <= value));
                }
                if let (Ok(_), Ok((kind, length))) = (whole, kind) {
                    let inside = length.is_some_and(|length| i < length);
                    assert_eq!(element.is_ok(), kind == 6 && inside);
                    assert_eq!(member.is_ok(), kind == 5 && inside);
                }
            }
            for key in [&b""[..], b"a", b"b"] {
                let found = first_member(&doc, &list, &table, count, cursor, key);
                if let (Ok(_), Ok((kind, _))) = (whole, kind) {
                    assert_eq!(found.is_ok(), kind == 5);
                }
            }
            assert!(
                whole.is_err() || number(&doc, &list, cursor).is_ok() == (kind.unwrap().0 == 3)
            );
            assert!(
                whole.is_err() || string(&doc, &list, cursor).is_ok() == (kind.unwrap().0 == 4)
            );
        }
    }
    assert!(accepted > 1_000, "only {accepted} accepted");
}
