//! The proved calls, with answers of the plain reader's types.

use czubrotek_sys as sys;
use plain::{Answer, Refusal};

/// What a lent word holds before a call, so that a word written without need is seen.
const BEFORE: u64 = 0xDEAD_BEEF_0BAD_F00D;

/// Asks with W lent words. `answered` gives the value and how many words it takes; the others must hold what they held.
fn ask<const W: usize, T>(
    call: impl Fn(&mut [u64]) -> u32,
    answered: impl Fn(&[u64; W]) -> (T, usize),
) -> Answer<T> {
    ask_counting(call, answered, &[])
}

/// The same, where a refusal must write these counts after its place.
fn ask_counting<const W: usize, T>(
    call: impl Fn(&mut [u64]) -> u32,
    answered: impl Fn(&[u64; W]) -> (T, usize),
    counts: &[u64],
) -> Answer<T> {
    let mut words = [BEFORE; W];
    let number = call(&mut words);
    assert_ne!(number, sys::TOO_FEW, "{W} words were too few");
    let (answer, used) = match number {
        0 => {
            let (value, used) = answered(&words);
            (Ok(value), used)
        }
        _ => {
            let used = 1 + counts.len();
            assert_eq!(&words[1..used], counts, "the counts of a refusal");
            let place = words[0];
            (Err(Refusal { number, place }), used)
        }
    };
    assert!(
        words[used..].iter().all(|&w| w == BEFORE),
        "a word was written that the answer does not name"
    );
    // one word fewer is too few, and nothing is written
    let mut few = [BEFORE; W];
    assert_eq!(call(&mut few[..W - 1]), sys::TOO_FEW);
    assert_eq!(few, [BEFORE; W]);
    answer
}

/// One word.
fn one(&[word]: &[u64; 1]) -> (u64, usize) {
    (word, 1)
}

/// Two words.
fn two(&[first, second]: &[u64; 2]) -> ((u64, u64), usize) {
    ((first, second), 2)
}

/// 1 and a word, or 0 alone.
fn found(&[found, word]: &[u64; 2]) -> (Option<u64>, usize) {
    match found {
        1 => (Some(word), 2),
        _ => (None, 1),
    }
}

pub mod binary_json {
    use super::*;

    /// The check, with the marks lent.
    pub fn check(doc: &[u8], marks: &mut [u8]) -> Answer<()> {
        // too few words: nothing is written
        let before = marks.to_vec();
        assert_eq!(sys::bj_check(doc, marks, &mut []), sys::TOO_FEW);
        assert!(marks == before, "marks were written with too few words");
        let mut out = [BEFORE];
        match (sys::bj_check(doc, marks, &mut out), out) {
            (0, [BEFORE]) => Ok(()),
            (0, _) => panic!("a word was written at acceptance"),
            (number, [place]) => Err(Refusal { number, place }),
        }
    }

    pub fn kind_and_size(doc: &[u8], tree: u64) -> Answer<(u64, u64)> {
        ask(|out| sys::bj_kind_and_size(doc, tree, out), two)
    }

    pub fn element(doc: &[u8], tree: u64, i: u64) -> Answer<u64> {
        ask(|out| sys::bj_element(doc, tree, i, out), one)
    }

    pub fn member(doc: &[u8], tree: u64, j: u64) -> Answer<(u64, u64)> {
        ask(|out| sys::bj_member(doc, tree, j, out), two)
    }

    pub fn entry_type(doc: &[u8], tree: u64) -> Answer<u64> {
        ask(|out| sys::bj_entry_type(doc, tree, out), one)
    }

    pub fn container(doc: &[u8], tree: u64) -> Answer<u64> {
        ask(|out| sys::bj_container(doc, tree, out), one)
    }

    pub fn string(doc: &[u8], tree: u64) -> Answer<(u64, u64)> {
        ask(|out| sys::bj_string(doc, tree, out), two)
    }

    pub fn number(doc: &[u8], tree: u64) -> Answer<u64> {
        ask(|out| sys::bj_number(doc, tree, out), one)
    }

    pub fn slot(doc: &[u8], slot: u64) -> Answer<(u64, u64)> {
        ask(|out| sys::bj_slot(doc, slot, out), two)
    }

    pub fn quick_lookup(doc: &[u8], tree: u64, key: &[u8]) -> Answer<(Option<u64>, u64, u64)> {
        ask_counting(
            |out| sys::bj_quick_lookup(doc, tree, key, out),
            |&[found, strings, keys, entry]| match found {
                1 => ((Some(entry), strings, keys), 4),
                _ => ((None, strings, keys), 3),
            },
            &[0, 0],
        )
    }

    pub fn plain_scan(doc: &[u8], tree: u64, key: &[u8]) -> Answer<Option<u64>> {
        ask(|out| sys::bj_plain_scan(doc, tree, key, out), found)
    }
}

pub mod fractured_json {
    use super::*;
    use plain::fractured_json::{Checked, Key, Lender};

    pub fn check_list(list: &[u8]) -> Answer<()> {
        ask(|out| sys::fj_check_list(list, out), |_: &[u64; 1]| ((), 0))
    }

    /// The check, with the key table lent.
    pub fn check(doc: &[u8], list: &[u8], keys: &mut [u32]) -> Checked {
        let mut out = [BEFORE; 2];
        // too few words: nothing is written anywhere
        let before = keys.to_vec();
        let few = sys::fj_check(doc, list, keys, &mut out[..1]);
        assert_eq!((few, out, &*keys), (sys::TOO_FEW, [BEFORE; 2], &*before));
        let number = sys::fj_check(doc, list, keys, &mut out);
        if number == 0 {
            assert_eq!(out[1], BEFORE);
            return Checked {
                verdict: Ok(()),
                count: out[0],
            };
        }
        Checked {
            verdict: Err(Refusal {
                number,
                place: out[0],
            }),
            count: out[1],
        }
    }

    pub fn end(doc: &[u8], list: &[u8], keys: &[u32], count: u64, at: u64) -> Answer<u64> {
        ask(|out| sys::fj_end(doc, list, keys, count, at, out), one)
    }

    pub fn kind(doc: &[u8], list: &[u8], at: u64) -> Answer<(u64, Option<u64>)> {
        ask(
            |out| sys::fj_kind(doc, list, at, out),
            |&[kind, len]| match kind {
                0..=3 => ((kind, None), 1),
                _ => ((kind, Some(len)), 2),
            },
        )
    }

    pub fn number(doc: &[u8], list: &[u8], at: u64) -> Answer<(u8, u64)> {
        ask(
            |out| sys::fj_number(doc, list, at, out),
            |&[type_byte, bits]| ((type_byte as u8, bits), 2),
        )
    }

    pub fn string(doc: &[u8], list: &[u8], at: u64) -> Answer<(u64, u64)> {
        ask(|out| sys::fj_string(doc, list, at, out), two)
    }

    pub fn element(
        doc: &[u8],
        list: &[u8],
        keys: &[u32],
        count: u64,
        at: u64,
        i: u64,
    ) -> Answer<u64> {
        ask(
            |out| sys::fj_element(doc, list, keys, count, at, i, out),
            one,
        )
    }

    pub fn member(
        doc: &[u8],
        list: &[u8],
        keys: &[u32],
        count: u64,
        at: u64,
        j: u64,
    ) -> Answer<(u64, u64)> {
        ask(
            |out| sys::fj_member(doc, list, keys, count, at, j, out),
            two,
        )
    }

    pub fn first_member(
        doc: &[u8],
        list: &[u8],
        keys: &[u32],
        count: u64,
        at: u64,
        key: &[u8],
    ) -> Answer<Option<u64>> {
        ask(
            |out| sys::fj_first_member(doc, list, keys, count, at, key, out),
            found,
        )
    }

    pub fn key<'d>(
        doc: &'d [u8],
        list: &'d [u8],
        keys: &[u32],
        count: u64,
        at: u64,
    ) -> Answer<Key<'d>> {
        ask(
            |out| sys::fj_key(doc, list, keys, count, at, out),
            |&[lender, place, len, value]| {
                let (lender, bytes) = match lender {
                    0 => (Lender::Document, doc),
                    1 => (Lender::KeyList, list),
                    _ => panic!("no lender has the number {lender}"),
                };
                let key = Key {
                    lender,
                    place: place as usize,
                    text: &bytes[place as usize..][..len as usize],
                    end: value as usize,
                };
                (key, 4)
            },
        )
    }
}

pub mod text {
    use super::*;
    use std::cmp::Ordering;

    pub fn compare(a: &[u8], b: &[u8]) -> (Ordering, u64) {
        let compared = ask(
            |out| sys::text_compare(a, b, out),
            |&[order, steps]| {
                let order = match order {
                    0 => Ordering::Less,
                    1 => Ordering::Equal,
                    2 => Ordering::Greater,
                    _ => panic!("no order has the number {order}"),
                };
                ((order, steps), 2)
            },
        );
        compared.expect("no text is refused")
    }
}

/// The calls that are timed: no test stands around them. The questions are inlined, as they take few instructions, and
/// give the number that is returned.
pub mod timed {
    pub mod binary_json {
        use czubrotek_sys as sys;

        pub fn check(doc: &[u8], marks: &mut [u8]) -> u32 {
            sys::bj_check(doc, marks, &mut [0; 1])
        }

        #[inline]
        pub fn kind_and_size(doc: &[u8], tree: u64) -> u32 {
            sys::bj_kind_and_size(doc, tree, &mut [0; 2])
        }

        #[inline]
        pub fn element(doc: &[u8], tree: u64, i: u64) -> u32 {
            sys::bj_element(doc, tree, i, &mut [0; 1])
        }

        #[inline]
        pub fn member(doc: &[u8], tree: u64, j: u64) -> u32 {
            sys::bj_member(doc, tree, j, &mut [0; 2])
        }

        #[inline]
        pub fn entry_type(doc: &[u8], tree: u64) -> u32 {
            sys::bj_entry_type(doc, tree, &mut [0; 1])
        }

        #[inline]
        pub fn container(doc: &[u8], tree: u64) -> u32 {
            sys::bj_container(doc, tree, &mut [0; 1])
        }

        #[inline]
        pub fn string(doc: &[u8], tree: u64) -> u32 {
            sys::bj_string(doc, tree, &mut [0; 2])
        }

        #[inline]
        pub fn number(doc: &[u8], tree: u64) -> u32 {
            sys::bj_number(doc, tree, &mut [0; 1])
        }

        #[inline]
        pub fn slot(doc: &[u8], slot: u64) -> u32 {
            sys::bj_slot(doc, slot, &mut [0; 2])
        }

        pub fn quick_lookup(doc: &[u8], tree: u64, key: &[u8]) -> [u64; 4] {
            let mut out = [0; 4];
            sys::bj_quick_lookup(doc, tree, key, &mut out);
            out
        }

        pub fn plain_scan(doc: &[u8], tree: u64, key: &[u8]) -> [u64; 2] {
            let mut out = [0; 2];
            sys::bj_plain_scan(doc, tree, key, &mut out);
            out
        }
    }

    pub mod fractured_json {
        use czubrotek_sys as sys;

        pub fn check_list(list: &[u8]) -> u32 {
            sys::fj_check_list(list, &mut [0; 1])
        }

        pub fn check(doc: &[u8], list: &[u8], keys: &mut [u32]) -> u32 {
            sys::fj_check(doc, list, keys, &mut [0; 2])
        }

        #[inline]
        pub fn end(doc: &[u8], list: &[u8], keys: &[u32], count: u64, at: u64) -> u32 {
            sys::fj_end(doc, list, keys, count, at, &mut [0; 1])
        }

        #[inline]
        pub fn kind(doc: &[u8], list: &[u8], at: u64) -> u32 {
            sys::fj_kind(doc, list, at, &mut [0; 2])
        }

        #[inline]
        pub fn number(doc: &[u8], list: &[u8], at: u64) -> u32 {
            sys::fj_number(doc, list, at, &mut [0; 2])
        }

        #[inline]
        pub fn string(doc: &[u8], list: &[u8], at: u64) -> u32 {
            sys::fj_string(doc, list, at, &mut [0; 2])
        }

        #[inline]
        pub fn element(doc: &[u8], list: &[u8], keys: &[u32], count: u64, at: u64, i: u64) -> u32 {
            sys::fj_element(doc, list, keys, count, at, i, &mut [0; 1])
        }

        #[inline]
        pub fn member(doc: &[u8], list: &[u8], keys: &[u32], count: u64, at: u64, j: u64) -> u32 {
            sys::fj_member(doc, list, keys, count, at, j, &mut [0; 2])
        }

        #[inline]
        pub fn first_member(
            doc: &[u8],
            list: &[u8],
            keys: &[u32],
            count: u64,
            at: u64,
            key: &[u8],
        ) -> u32 {
            sys::fj_first_member(doc, list, keys, count, at, key, &mut [0; 2])
        }

        #[inline]
        pub fn key(doc: &[u8], list: &[u8], keys: &[u32], count: u64, at: u64) -> u32 {
            sys::fj_key(doc, list, keys, count, at, &mut [0; 4])
        }
    }
}
