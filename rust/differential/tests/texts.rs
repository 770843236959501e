//! The order of two texts and the steps that tell it, of the proved call and the plain one.

use differential::compare::{Verdicts, for_all_seeds, seeds, shown};
use differential::random::Random;
use differential::{LONGEST, documents, exports, large_documents, same};
use exports::text as proved;
use plain::text as plain;
use std::cmp::Ordering;
use std::fmt::Display;

/// Compares two texts with both, both ways round; `of` says which texts they are.
fn agree(of: impl Display, a: &[u8], b: &[u8]) -> Ordering {
    for (a, b) in [(b, a), (a, b)] {
        same!(
            a,
            proved::compare(a, b),
            plain::compare(a, b),
            "{of} compare with {}",
            shown(b)
        );
    }
    a.cmp(b)
}

/// The longest of the texts whose every difference is compared.
const SHORT: usize = 40;

/// Bytes that differ, the smaller first.
const PAIRS: [[u8; 2]; 8] = [
    [0x00, 0x01],
    [0x00, 0x80],
    [0x00, 0xFF],
    [0x01, 0x02],
    [0x61, 0x7A],
    [0x7F, 0x80],
    [0x01, 0xFF],
    [0xFE, 0xFF],
];

/// A kind of difference.
#[derive(Debug, Clone, Copy)]
struct Kind {
    /// The bytes before the difference.
    shared: u8,
    /// The bytes that differ.
    pair: [u8; 2],
    /// Whether the bytes after it differ the other way round; else they are as those before.
    turned: bool,
}

impl Kind {
    /// The bytes of both texts: before the difference, there, and after it.
    fn bytes(self) -> [[u8; 3]; 2] {
        let Kind { shared, pair, .. } = self;
        let [smaller, larger] = pair;
        let after = if self.turned {
            [larger, smaller]
        } else {
            [shared; 2]
        };
        [[shared, smaller, after[0]], [shared, larger, after[1]]]
    }
}

fn kinds() -> Vec<Kind> {
    let mut kinds = vec![];
    for shared in [0x00, 0x6D, 0xFF] {
        for pair in PAIRS {
            for turned in [false, true] {
                kinds.push(Kind {
                    shared,
                    pair,
                    turned,
                });
            }
        }
    }
    kinds
}

/// A text inside a buffer, at a start below 8. What stands around it is no part of it.
struct Inside {
    buffer: [u8; SHORT + 24],
    around: u8,
}

impl Inside {
    fn new(around: u8) -> Self {
        let buffer = [around; SHORT + 24];
        Inside { buffer, around }
    }

    /// A text whose bytes are this one before `at`, this one there and this one after it.
    fn text(
        &mut self,
        start: usize,
        len: usize,
        at: usize,
        [before, there, after]: [u8; 3],
    ) -> &[u8] {
        self.buffer.fill(self.around);
        let text = &mut self.buffer[start..start + len];
        for (i, byte) in text.iter_mut().enumerate() {
            *byte = match i.cmp(&at) {
                Ordering::Less => before,
                Ordering::Equal => there,
                Ordering::Greater => after,
            };
        }
        text
    }
}

/// Two buffers, whose surroundings differ.
struct Buffers(Inside, Inside);

impl Buffers {
    fn new() -> Self {
        Buffers(Inside::new(0x33), Inside::new(0xCC))
    }

    /// Compares two texts of these lengths and starts, which differ at a byte, if both have it.
    fn agree(&mut self, lens: [usize; 2], starts: [usize; 2], at: usize, kind: Kind) {
        let [bytes_a, bytes_b] = kind.bytes();
        let a = self.0.text(starts[0], lens[0], at, bytes_a);
        let b = self.1.text(starts[1], lens[1], at, bytes_b);
        let order = agree(format_args!("{kind:?} at {at}, starts {starts:?}"), a, b);
        let both_have_it = lens.iter().all(|&len| at < len);
        assert!(!both_have_it || order == Ordering::Less);
    }
}

/// Runs `one` for all lengths up to 40, and every byte that both have or the one after; answers how often.
fn for_all_bytes(mut one: impl FnMut([usize; 2], usize)) -> usize {
    let mut runs = 0;
    for a in 0..=SHORT {
        for b in 0..=SHORT {
            for at in 0..=a.min(b) {
                one([a, b], at);
                runs += 1;
            }
        }
    }
    runs
}

/// Every kind of difference, at starts in turn.
#[test]
fn every_difference_agrees() {
    let (kinds, mut buffers) = (kinds(), Buffers::new());
    let mut starts = (0..64).map(|n| [n / 8, n % 8]).cycle();
    let runs = for_all_bytes(|lens, at| {
        for (&kind, starts) in kinds.iter().zip(&mut starts) {
            buffers.agree(lens, starts, at, kind);
        }
    });
    println!("Differences: {} pairs of texts", runs * kinds.len());
}

/// Every pair of starts, with the kinds of difference in turn.
#[test]
fn every_start_agrees() {
    let (kinds, mut buffers) = (kinds(), Buffers::new());
    let mut kinds = kinds.iter().cycle();
    let runs = for_all_bytes(|lens, at| {
        for (n, &kind) in (0..64).zip(&mut kinds) {
            buffers.agree(lens, [n / 8, n % 8], at, kind);
        }
    });
    println!("Starts: {} pairs of texts", 64 * runs);
}

/// Two texts out of few letters, which share up to all bytes of the first.
fn short(seed: u64) -> usize {
    let random = &mut Random::new(seed);
    let letters = |random: &mut Random, most: usize| -> Vec<u8> {
        let len = random.below(most + 1);
        let letter = |_| random.pick(&[0x00, 0x01, 0x7F, 0x80, 0xFF]);
        (0..len).map(letter).collect()
    };
    let a = letters(random, 40);
    let shared = random.below(a.len() + 1);
    let b = [&a[..shared], &letters(random, 20)].concat();
    number(agree(format_args!("seed {seed}"), &a, &b))
}

/// Two texts of up to 400,000 bytes, one made from the other.
fn long(seed: u64) -> usize {
    let random = &mut Random::new(!seed);
    let most = random.pick(&[100, 5_000, 100_000, 400_000]);
    let len = 1 + random.below(most);
    let mut a = match random.below(3) {
        0 => vec![random.pick(&[0x00, 0x61, 0xFF]); len],
        _ => random.bytes(len),
    };
    let mut b = a.clone();
    match random.below(8) {
        0 => {}
        1 => b[0] ^= 1 << random.below(8),
        2 => b[len - 1] ^= 1 << random.below(8),
        3 => b.truncate(random.below(len)),
        4 => b.truncate(len - 1 - random.below(len.min(20))),
        5 => b.extend(vec![random.bits() as u8; 1 + random.below(20)]),
        _ => {
            for _ in 0..random.pick(&[1, 1, 2, 5]) {
                let at = random.below(len);
                b[at] = random.bits() as u8;
            }
        }
    }
    if random.once_in(2) {
        (a, b) = (b, a);
    }
    // the same bytes are taken from both, so that they start anywhere
    let start = random.below(8).min(a.len()).min(b.len());
    let of = format_args!("seed {seed}");
    number(agree(of, &a[start..], &b[start..]))
}

/// The number of an order, as the call writes it.
fn number(order: Ordering) -> usize {
    match order {
        Ordering::Less => 0,
        Ordering::Equal => 1,
        Ordering::Greater => 2,
    }
}

/// Each order must have come up.
fn all_met(texts: &str, orders: Verdicts) {
    let [below, equal, above, ..] = orders;
    println!("{texts}: {below} below, {equal} equal, {above} above");
    let pairs = below + equal + above;
    assert!(
        orders[..3].iter().all(|&n| n > 0) || pairs < 400,
        "{texts}: an order is missing"
    );
}

#[test]
fn short_texts_agree() {
    all_met("Short texts", for_all_seeds(seeds(documents()), short));
}

#[test]
fn long_texts_agree() {
    all_met("Long texts", for_all_seeds(seeds(large_documents()), long));
}

/// Texts as long as a document can be, and some bytes less.
#[test]
fn longest_texts_agree() {
    let a = vec![b'x'; LONGEST];
    let mut b = a.clone();
    for len in LONGEST - 9..=LONGEST {
        agree("no difference", &a, &b[..len]);
    }
    for at in [0, 7, 8, LONGEST / 2 + 3, LONGEST - 8, LONGEST - 1] {
        for byte in [0x00, 0x79, 0xFF] {
            b[at] = byte;
            for len in [LONGEST, LONGEST - 1] {
                agree(format_args!("{byte:02X} at {at}"), &a, &b[..len]);
            }
        }
        b[at] = b'x';
    }
}
