//! Every verdict, place, mark and key-table word, and every question at every cursor, of the proved and the plain
//! readers.

use differential::compare::{
    Lent, all_met, binary_json_at, check_binary_json, check_fractured_json, for_all_seeds,
    for_each_order, fractured_json_at, number, seeds,
};
use differential::containers::spoil_containers;
use differential::random::Random;
use differential::spoil::spoil;
use differential::{INDICES, LONGEST, both, cursors, documents, exports, same};
use documents::binary_json::Order;

/// Spoils a document not at all, once or a few times.
fn spoil_by_chance(random: &mut Random, doc: &mut Vec<u8>) {
    for _ in 0..random.pick(&[0, 0, 1, 1, 1, 2, 4]) {
        spoil(random, doc);
    }
}

/// The keys that are looked up: a few texts, and two parts of the document itself.
fn sought(random: &mut Random, doc: &[u8]) -> Vec<Vec<u8>> {
    let mut keys = vec![random.text(3), random.text(3)];
    for _ in 0..2 {
        keys.push(random.part(doc, 4).to_vec());
    }
    keys
}

/// Whether there are documents enough to ask for every verdict.
fn enough() -> bool {
    documents() >= 100_000
}

fn binary_json(seed: u64, order: Order) -> usize {
    let random = &mut Random::new(seed);
    let doc = &mut differential::binary_json::document(random, order);
    if random.once_in(2) {
        for _ in 0..random.pick(&[1, 1, 2, 3]) {
            spoil_containers(random, doc);
        }
    }
    if random.once_in(2) {
        spoil_by_chance(random, doc);
    }
    let doc = &doc[..];
    let verdict = check_binary_json(seed, random, doc);
    let keys = sought(random, doc);
    for at in cursors(doc.len()) {
        binary_json_at(seed, doc, at, &INDICES, &keys);
    }
    number(verdict)
}

fn fractured_json(seed: u64) -> usize {
    use differential::fractured_json as make;
    use exports::fractured_json as proved;
    use plain::fractured_json as plain;
    let random = &mut Random::new(!seed);
    let names = make::names(random);
    let list = &make::list(random, &names)[..];
    let mut doc = make::document(random, &names);
    spoil_by_chance(random, &mut doc);
    let doc = &doc[..];
    both!(seed, list: check_list());
    let mut table = make::table(random);
    let checked = check_fractured_json(seed, doc, list, &mut table);
    let mut count = checked.count;
    if random.once_in(4) {
        // any words and any count may be handed in
        table = make::table(random);
        count = random.pick(&[0, 1, 2, 3, 6, 4096, 4097, u64::MAX]);
    }
    let mut keys = sought(random, doc);
    if !names.is_empty() {
        keys[0] = names[random.below(names.len())].clone();
    }
    let table = &table;
    let lent = Lent { list, table, count };
    for at in cursors(doc.len()) {
        fractured_json_at(seed, doc, lent, at, &INDICES, &keys);
    }
    number(checked.verdict)
}

// Refusals 2 and 32 come up below, with the longest documents.

#[test]
fn binary_json_agrees() {
    for (order, verdicts) in for_each_order(documents(), binary_json) {
        let format = format!("BinaryJson, {order}");
        all_met(&format, &verdicts, (0..=15).filter(|&n| n != 2), enough());
    }
}

#[test]
fn fractured_json_agrees() {
    let verdicts = for_all_seeds(seeds(documents()), fractured_json);
    let numbers = [0].into_iter().chain(31..=43).chain(51..=54);
    let numbers = numbers.filter(|&n| n != 32);
    all_met("Fractured JSON", &verdicts, numbers, enough());
}

/// Documents at the longest length and a few bytes more or less, with what matters at their very end.
#[test]
fn longest_documents_agree() {
    // one buffer for all of them
    let mut buffer = vec![b'x'; LONGEST + 2];
    for len in LONGEST - 2..=LONGEST + 2 {
        longest_binary_json_agrees(&mut buffer[..len]);
        longest_fractured_json_agrees(&mut buffer[..len]);
    }
}

/// The verdict on a document that is too long.
fn refused(number: u32, len: usize) -> plain::Answer<()> {
    let place = len as u64;
    Err(plain::Refusal { number, place })
}

/// [-1.5,"x...x"]: one text from 24 on, and the number in the last eight bytes.
fn longest_binary_json_agrees(doc: &mut [u8]) {
    use exports::binary_json as proved;
    use plain::binary_json as plain;
    let len = doc.len();
    let number = -1.5_f64;
    let last = len as u32 - 8;
    let words = [
        1 + 32 * 16,
        32 * 2,
        4 + 32 * last,
        3 + 32 * 20,
        1,
        32 * last,
    ];
    for (bytes, word) in doc.chunks_mut(4).zip(words) {
        bytes.copy_from_slice(&u32::to_le_bytes(word));
    }
    doc[24..len - 9].fill(b'x');
    doc[len - 9] = 0;
    doc[len - 8..].copy_from_slice(&number.to_le_bytes());
    let doc = &doc[..];
    both!(len, doc: check(&mut [7; 4]), number(8), string(12), slot(20), element(4, 1));
    let mut marks = [7; 4];
    let verdict = proved::check(doc, &mut marks);
    if len > LONGEST {
        assert_eq!((verdict, marks), (refused(2, len), [7; 4]));
    } else {
        assert_eq!((verdict, marks), (Ok(()), [1, 1, 1, 7]));
        assert_eq!(proved::number(doc, 8), Ok(number.to_bits()));
        assert_eq!(proved::string(doc, 12), Ok((24, len as u64 - 33)));
    }
}

/// ["x...x",31]: a string with a length of four bytes, and the number in the last byte.
fn longest_fractured_json_agrees(doc: &mut [u8]) {
    use exports::fractured_json as proved;
    use plain::fractured_json as plain;
    let len = doc.len();
    doc[..5].copy_from_slice(b"FJ\x01\xA0\x0F");
    doc[5..9].copy_from_slice(&(len as u32 - 10).to_le_bytes());
    doc[9..len - 1].fill(b'x');
    doc[len - 1] = 0xFD;
    let (doc, list, last) = (&doc[..], &[0, 0, 0][..], len as u64 - 1);
    both!(len, doc: check(list, &mut [0; 0]), string(list, 4), number(list, last));
    both!(len, doc: element(list, &[0; 0], 0, 3, 1), end(list, &[0; 0], 0, 3));
    let verdict = proved::check(doc, list, &mut []).verdict;
    if len > LONGEST {
        assert_eq!(verdict, refused(32, len));
    } else {
        assert_eq!(verdict, Ok(()));
        assert_eq!(proved::element(doc, list, &[], 0, 3, 1), Ok(last));
        assert_eq!(proved::number(doc, list, last), Ok((0xFD, 31)));
        assert_eq!(proved::string(doc, list, 4), Ok((9, len as u64 - 10)));
    }
}

/// Key lists of as many names as a count says, and the last global indices.
#[test]
fn longest_lists_agree() {
    use documents::fractured_json::{GLOBAL_INDEX, key_list};
    use exports::fractured_json as proved;
    use plain::fractured_json as plain;
    let mut names: Vec<_> = (0..u16::MAX).map(|n| n.to_le_bytes().to_vec()).collect();
    let list = &key_list(&names);
    for index in 65_533..=65_535 {
        let mut doc = b"FJ\x01\x6F".to_vec();
        GLOBAL_INDEX.put_key_number(&mut doc, index, None);
        doc.push(0x00);
        let last = names[65_534].as_slice();
        same!(
            &doc,
            (
                proved::check(&doc, list, &mut []),
                proved::first_member(&doc, list, &[], 0, 3, last),
                proved::key(&doc, list, &[], 0, 4)
            ),
            (
                plain::check(&doc, list, &mut []),
                plain::first_member(&doc, list, &[], 0, 3, last),
                plain::key(&doc, list, &[], 0, 4)
            ),
            "index {index}"
        );
    }
    names[65_534] = names[0].clone();
    for (list, what) in [
        (&list[..], "65,535 names"),
        (&list[..list.len() - 1], "65,535 names, cut"),
        (&key_list(&names), "65,535 names, the last as the first"),
    ] {
        same!(
            &list[..8],
            proved::check_list(list),
            plain::check_list(list),
            "{what}"
        );
    }
}
