//! Comparing answers of the proved readers with those of the plain ones, and running many seeds.

use crate::binary_json::tree_words;
use crate::random::Random;
use crate::{exports, first_seed, hex};
use documents::binary_json::Order;
use std::fmt::Debug;
use std::ops::Range;
use std::thread;

/// A document for a message: its length, and its bytes if they are not too many to read.
pub fn shown(doc: &[u8]) -> String {
    match doc.len() {
        len @ 0..=4096 => format!("{len} bytes: {}", hex(doc)),
        len => format!("{len} bytes"),
    }
}

/// Arguments or answers for a message, each cut if it is long.
pub fn brief(values: &[&dyn Debug]) -> String {
    let cut = |value: &&dyn Debug| {
        let mut text = format!("{value:?}");
        if let Some((end, _)) = text.char_indices().nth(2_000) {
            text.truncate(end);
            text += "...";
        }
        text
    };
    let texts: Vec<String> = values.iter().map(cut).collect();
    texts.join(", ")
}

/// Compares one answer, and prints the document if it differs.
#[macro_export]
macro_rules! same {
    ($doc:expr, $proved:expr, $plain:expr, $($what:tt)*) => {
        let (proved, plain) = ($proved, $plain);
        assert!(
            proved == plain,
            "{}: proved {}, plain {}\n{}",
            format!($($what)*),
            $crate::compare::brief(&[&proved]),
            $crate::compare::brief(&[&plain]),
            $crate::compare::shown($doc)
        );
    };
}

/// Asks `proved` and `plain` the same questions of a document, and compares the answers; `of` says which document it is.
#[macro_export]
macro_rules! both {
    ($of:ident, $doc:ident: $($question:ident($($argument:expr),*)),*) => {
        $($crate::same!(
            $doc,
            proved::$question($doc, $($argument),*),
            plain::$question($doc, $($argument),*),
            "{} {} {}({})", stringify!($of), $of, stringify!($question),
            $crate::compare::brief(&[$(&$argument),*])
        );)*
    };
}

/// Asks every question of a BinaryJson document at a cursor, with these indices and keys.
pub fn binary_json_at(seed: u64, doc: &[u8], at: u64, indices: &[u64], keys: &[Vec<u8>]) {
    use exports::binary_json as proved;
    use plain::binary_json as plain;
    both!(seed, doc: kind_and_size(at), entry_type(at), container(at));
    both!(seed, doc: string(at), number(at), slot(at));
    for &i in indices {
        both!(seed, doc: element(at, i), member(at, i));
    }
    for key in keys {
        both!(seed, doc: quick_lookup(at, key), plain_scan(at, key));
    }
}

/// Checks a BinaryJson document with both readers, lent as many marks as its tree has words, more and fewer; compares
/// every verdict and every mark. Answers the verdict with as many, or once in a while with one fewer.
pub fn check_binary_json(seed: u64, random: &mut Random, doc: &[u8]) -> plain::Answer<()> {
    let words = tree_words(doc);
    let lent = [
        words,
        words.saturating_sub(1),
        0,
        words + 1 + random.below(8),
        words + 4_000 + random.below(1_000),
        random.below(2 * words + 2),
    ];
    let [enough, too_few, ..] = lent.map(|marks| check_with_marks(seed, random, doc, marks));
    if random.once_in(10) { too_few } else { enough }
}

/// Checks it with so many marks, lent out of the middle of a buffer that holds noise.
pub fn check_with_marks(
    seed: u64,
    random: &mut Random,
    doc: &[u8],
    marks: usize,
) -> plain::Answer<()> {
    let start = random.below(9);
    let mut buffer = random.bytes(start + marks + 8);
    let before = buffer.clone();
    let mut other = buffer.clone();
    let lent = start..start + marks;
    let verdict = exports::binary_json::check(doc, &mut buffer[lent.clone()]);
    let plainly = plain::binary_json::check(doc, &mut other[lent]);
    same!(
        doc,
        verdict,
        plainly,
        "seed {seed} check with {marks} marks"
    );
    for (i, (mark, other)) in buffer.iter().zip(&other).enumerate() {
        same!(
            doc,
            mark,
            other,
            "seed {seed} byte {i} of a buffer whose {marks} marks start at {start}"
        );
    }
    let past = start + marks.min(tree_words(doc));
    assert!(
        buffer[..start] == before[..start] && buffer[past..] == before[past..],
        "seed {seed}: of {marks} marks one was written that stands for no word of the tree\n{}",
        shown(doc)
    );
    verdict
}

/// What the questions of an FJ document are lent beside it.
#[derive(Clone, Copy)]
pub struct Lent<'a> {
    pub list: &'a [u8],
    pub table: &'a [u32],
    pub count: u64,
}

/// Asks every question of an FJ document at a cursor, with these indices and keys.
pub fn fractured_json_at(
    seed: u64,
    doc: &[u8],
    lent: Lent,
    at: u64,
    indices: &[u64],
    keys: &[Vec<u8>],
) {
    use exports::fractured_json as proved;
    use plain::fractured_json as plain;
    let Lent { list, table, count } = lent;
    both!(seed, doc: kind(list, at), number(list, at), string(list, at));
    both!(seed, doc: end(list, table, count, at), key(list, table, count, at));
    for &i in indices {
        both!(seed, doc: element(list, table, count, at, i), member(list, table, count, at, i));
    }
    for key in keys {
        both!(seed, doc: first_member(list, table, count, at, key));
    }
}

/// Checks an FJ document with both readers; compares verdict, count and every word of the table, which holds the pairs afterwards.
pub fn check_fractured_json(
    seed: u64,
    doc: &[u8],
    list: &[u8],
    table: &mut [u32],
) -> plain::fractured_json::Checked {
    let mut other = table.to_vec();
    let checked = exports::fractured_json::check(doc, list, table);
    let plainly = plain::fractured_json::check(doc, list, &mut other);
    same!(
        doc,
        checked,
        plainly,
        "seed {seed} check with the key list {}",
        brief(&[&hex(list)])
    );
    for (i, (word, other)) in table.iter().zip(&other).enumerate() {
        same!(
            doc,
            word,
            other,
            "seed {seed} word {i} after the check with the key list {}",
            brief(&[&hex(list)])
        );
    }
    checked
}

/// How many verdicts there were, by their number; 0 is acceptance.
pub type Verdicts = [u64; 64];

/// The number of a verdict, 0 for acceptance.
pub fn number(verdict: plain::Answer<()>) -> usize {
    verdict.map_or_else(|r| r.number as usize, |()| 0)
}

/// So many seeds, from the first on.
pub fn seeds(count: u64) -> Range<u64> {
    first_seed()..first_seed() + count
}

/// Runs `one` for all these seeds, on every processor, and counts the verdicts.
pub fn for_all_seeds(
    seeds: impl Iterator<Item = u64> + Clone + Send + 'static,
    one: impl Fn(u64) -> usize + Copy + Send + 'static,
) -> Verdicts {
    let workers = thread::available_parallelism().map_or(1, |n| n.get());
    let runs: Vec<_> = (0..workers)
        .map(|w| {
            let seeds = seeds.clone().skip(w).step_by(workers);
            thread::spawn(move || {
                let mut verdicts = [0; 64];
                for seed in seeds {
                    verdicts[one(seed)] += 1;
                }
                verdicts
            })
        })
        .collect();
    let mut verdicts = [0; 64];
    for run in runs {
        let part = run.join().expect("a document on which the readers differ");
        for (all, some) in verdicts.iter_mut().zip(part) {
            *all += some;
        }
    }
    verdicts
}

/// Runs `one` for so many seeds, a third of them in each order of containers, and counts the verdicts of each.
pub fn for_each_order(count: u64, one: fn(u64, Order) -> usize) -> [(&'static str, Verdicts); 3] {
    let run = |third, order: fn(u64) -> Order| {
        let seeds = seeds(count).filter(move |seed| seed % 3 == third);
        for_all_seeds(seeds, move |seed| one(seed, order(seed)))
    };
    [
        ("depth first", run(0, |_| Order::DepthFirst)),
        ("breadth first", run(1, |_| Order::BreadthFirst)),
        ("shuffled", run(2, Order::Shuffled)),
    ]
}

/// Prints which verdicts came up. If there were `enough` documents, these must have, or the run does not show enough.
pub fn all_met(
    documents: &str,
    verdicts: &Verdicts,
    numbers: impl IntoIterator<Item = usize>,
    enough: bool,
) {
    let met: Vec<String> = (1..verdicts.len())
        .filter(|&n| verdicts[n] > 0)
        .map(|n| format!("{n}: {}", verdicts[n]))
        .collect();
    println!(
        "{documents}: {} documents, {} accepted; refused with {}",
        verdicts.iter().sum::<u64>(),
        verdicts[0],
        met.join(", ")
    );
    let missed: Vec<usize> = (numbers.into_iter())
        .filter(|&n| verdicts[n] == 0)
        .collect();
    assert!(
        missed.is_empty() || !enough,
        "{documents}: no document has the verdicts {missed:?}"
    );
}
