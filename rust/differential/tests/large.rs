//! Large documents: every verdict, place, mark and key-table word, and every question at a sample of cursors, of the
//! proved and the plain readers.

use differential::compare::{
    Lent, Verdicts, all_met, binary_json_at, check_binary_json, check_fractured_json,
    check_with_marks, for_all_seeds, for_each_order, fractured_json_at, number, seeds,
};
use differential::containers::spoil_containers;
use differential::random::Random;
use differential::{FAR, LONGEST, fractured_json as small, large, large_documents};
use documents::Tree;
use documents::binary_json::{Order, document_in};
use std::collections::BTreeSet;

/// Where a document is asked, and for which keys.
struct Sample {
    cursors: BTreeSet<u64>,
    keys: Vec<Vec<u8>>,
}

impl Sample {
    /// Cursors near the start, near the end, anywhere and far beyond; two keys that mostly are absent.
    fn new(random: &mut Random, doc: &[u8]) -> Self {
        let mut cursors = BTreeSet::from(FAR);
        for _ in 0..20 {
            let any = random.below(doc.len() + 1) as u64;
            cursors.extend([any, any / 4 * 4]);
            cursors.insert(random.below(80) as u64);
            cursors.insert((doc.len() + 9).saturating_sub(random.below(80)) as u64);
        }
        let keys = vec![random.text(3), random.part(doc, 4).to_vec()];
        Sample { cursors, keys }
    }

    /// A key that is present, and by chance one that differs from it.
    fn key(&mut self, random: &mut Random, text: &[u8]) {
        if self.keys.len() < 6 {
            self.keys.push(text.to_vec());
            if random.once_in(2) {
                let end = random.below(text.len() + 1);
                self.keys.push([&text[..end], b"a"].concat());
            }
        }
    }
}

/// The indices asked for in a container of `n`: the first and last ones, one between and one past the end.
fn indices(random: &mut Random, n: u64) -> [u64; 6] {
    let between = random.below(n.max(1) as usize) as u64;
    [0, 1, n.saturating_sub(1), n, between, u64::MAX]
}

/// An index under the size, if there is one: often the first or the last.
fn index(random: &mut Random, n: u64) -> Option<u64> {
    let between = random.below(n.max(1) as usize) as u64;
    (n > 0).then(|| random.pick(&[0, n - 1, between, between]))
}

/// Goes down from the root by the plain reader, until there is no further container: every Meta, slot and Entry on the way is a
/// cursor.
fn down_binary_json(random: &mut Random, doc: &[u8], sample: &mut Sample) -> Option<()> {
    use plain::binary_json as plain;
    let mut meta = 4;
    loop {
        sample.cursors.insert(meta);
        let (kind, n) = plain::kind_and_size(doc, meta).ok()?;
        let i = index(random, n)?;
        let entry = match kind {
            1 => {
                let (slot, entry) = plain::member(doc, meta, i).ok()?;
                sample.cursors.insert(slot);
                let (place, length) = plain::slot(doc, slot).ok()?;
                sample.key(random, &doc[place as usize..][..length as usize]);
                entry
            }
            _ => plain::element(doc, meta, i).ok()?,
        };
        sample.cursors.insert(entry);
        let child = plain::container(doc, entry).ok()?;
        // in a spoilt document containers may go round
        if child <= meta {
            return None;
        }
        meta = child;
    }
}

/// Goes down from the root by the plain reader, until there is no further container: every value and key on the way is a cursor.
fn down_fractured_json(
    random: &mut Random,
    doc: &[u8],
    Lent { list, table, count }: Lent,
    sample: &mut Sample,
) -> Option<()> {
    use plain::fractured_json as plain;
    let mut at = 3;
    loop {
        sample.cursors.insert(at);
        let (kind, n) = plain::kind(doc, list, at).ok()?;
        let i = index(random, n?)?;
        at = match kind {
            5 => {
                let (key, value) = plain::member(doc, list, table, count, at, i).ok()?;
                sample.cursors.insert(key);
                let text = plain::key(doc, list, table, count, key).ok()?.text;
                sample.key(random, text);
                value
            }
            6 => plain::element(doc, list, table, count, at, i).ok()?,
            _ => return None,
        };
    }
}

fn binary_json(seed: u64, order: Order) -> usize {
    use plain::binary_json as plain;
    let random = &mut Random::new(seed);
    let doc = &large::binary_json(random, order);
    let verdict = check_binary_json(seed, random, doc);
    let mut sample = Sample::new(random, doc);
    for _ in 0..8 {
        down_binary_json(random, doc, &mut sample);
    }
    for &at in &sample.cursors {
        let n = plain::kind_and_size(doc, at).map_or(0, |(_, n)| n);
        binary_json_at(seed, doc, at, &indices(random, n), &sample.keys);
    }
    number(verdict)
}

fn fractured_json(seed: u64) -> usize {
    use plain::fractured_json as plain;
    let random = &mut Random::new(!seed);
    let names = small::names(random);
    let list = &small::list(random, &names);
    let doc = &large::fractured_json(random, &names);
    let mut table = large::table(random);
    let checked = check_fractured_json(seed, doc, list, &mut table);
    let mut count = checked.count;
    match random.below(8) {
        // any words and any count may be handed in
        0 => table = large::table(random),
        1 => count = random.pick(&[0, count / 2, count + 1, 4_096, 4_097, u64::MAX]),
        _ => {}
    }
    let table = &table;
    let lent = Lent { list, table, count };
    let mut sample = Sample::new(random, doc);
    for _ in 0..6 {
        down_fractured_json(random, doc, lent, &mut sample);
    }
    for &at in &sample.cursors {
        let n = match plain::kind(doc, list, at) {
            Ok((_, Some(n))) => n,
            _ => 0,
        };
        let indices = indices(random, n);
        fractured_json_at(seed, doc, lent, at, &indices, &sample.keys);
    }
    number(checked.verdict)
}

/// Whether there are documents enough to ask for many verdicts.
fn enough() -> bool {
    large_documents() >= 400
}

/// At least a quarter of the documents must have been accepted, and these refusals must have come up.
fn quarter_accepted(format: &str, verdicts: &Verdicts, refusals: &[usize]) {
    all_met(format, verdicts, refusals.iter().copied(), enough());
    assert!(
        verdicts[0] >= large_documents() / 4 || !enough(),
        "{format}: too few were accepted"
    );
}

#[test]
fn large_binary_json_agrees() {
    let mut all = [0; 64];
    for (order, verdicts) in for_each_order(large_documents(), binary_json) {
        let format = format!("Large BinaryJson, {order}");
        all_met(&format, &verdicts, [0, 9, 13, 14, 15], enough());
        for (all, some) in all.iter_mut().zip(verdicts) {
            *all += some;
        }
    }
    quarter_accepted("Large BinaryJson", &all, &[4, 5, 7, 8, 10, 11, 12]);
}

/// Documents of the longest length that are all tree, in each order of containers: as made, and spoilt.
#[test]
fn longest_trees_agree() {
    // all but the header and the string count
    let words = LONGEST / 4 - 2;
    // each small tree takes eight words, one of them in the root
    let array = Tree::Array;
    let small = || array(vec![array(vec![]), array(vec![array(vec![])])]);
    let mut items: Vec<Tree> = (0..(words - 1) / 8).map(|_| small()).collect();
    items.extend((0..(words - 1) % 8).map(|_| Tree::Null));
    let tree = array(items);
    for order in [Order::DepthFirst, Order::BreadthFirst, Order::Shuffled(1)] {
        let doc = document_in(&tree, &Tree::Null, order);
        assert_eq!(doc.len(), LONGEST);
        let random = &mut Random::new(0);
        let mut check = |marks| number(check_with_marks(0, random, &doc, marks));
        assert_eq!([check(words), check(words - 1)], [0, 15]);
        let spoilt = seeds(8).map(|seed| {
            let random = &mut Random::new(seed);
            let mut doc = doc.clone();
            spoil_containers(random, &mut doc);
            number(check_with_marks(seed, random, &doc, words))
        });
        let verdicts: Vec<usize> = spoilt.collect();
        println!("Longest trees, {order:?}: spoilt ones have the verdicts {verdicts:?}");
    }
}

/// An array of nearly all words and an empty one: behind it and named in either order, with one word in both, with one
/// in neither, and inside it.
#[test]
fn longest_bodies_agree() {
    let nulls = LONGEST / 4 - 7;
    let long = Tree::Array((0..nulls).map(|_| Tree::Null).collect());
    let tree = Tree::Array(vec![long, Tree::Array(vec![])]);
    let mut doc = document_in(&tree, &Tree::Null, Order::DepthFirst);
    assert_eq!(doc.len(), LONGEST);
    let last = doc.len() as u32 - 8;
    let random = &mut Random::new(0);
    // the places that the root names, the long one's elements and its first Entry
    let mut check = |named: [u32; 2], elements: usize, first: u32| {
        let words = [
            5 + 32 * named[0],
            5 + 32 * named[1],
            32 * elements as u32,
            first,
        ];
        let bytes = words.map(u32::to_le_bytes);
        doc[8..24].copy_from_slice(bytes.as_flattened());
        let verdict = check_with_marks(0, random, &doc, LONGEST / 4 - 2);
        verdict.err().map(|r| (r.number, r.place as u32))
    };
    for named in [[16, last], [last, 16]] {
        assert_eq!(check(named, nulls, 2), None);
        assert_eq!(check(named, nulls + 1, 2), Some((14, named[1])));
        assert_eq!(check(named, nulls - 1, 2), Some((13, last - 4)));
    }
    assert_eq!(check([20, 16], nulls, 0), Some((14, 16)));
}

#[test]
fn large_fractured_json_agrees() {
    let verdicts = for_all_seeds(seeds(large_documents()), fractured_json);
    quarter_accepted(
        "Large Fractured JSON",
        &verdicts,
        &[35, 36, 38, 39, 40, 41, 42],
    );
}
