//! Spoiling a document: bits, bytes, its length, words that are off by one, swapped words, floats that are not finite.

use crate::random::Random;

/// Spoils a document once, anywhere.
pub fn spoil(random: &mut Random, doc: &mut Vec<u8>) {
    if doc.is_empty() {
        return doc.push(random.bits() as u8);
    }
    let at = random.below(doc.len());
    spoil_at(random, doc, at);
}

/// Spoils a document once, at a byte of it or at the word there.
pub fn spoil_at(random: &mut Random, doc: &mut Vec<u8>, at: usize) {
    let word = at / 4 * 4;
    match random.below(12) {
        0 => doc[at] ^= 1 << random.below(8),
        1 => doc[at] = random.bits() as u8,
        2 => doc[at] = random.pick(&[0x00, 0x01, 0x02, 0x57, 0x80, 0xAB, 0xFE, 0xFF]),
        3 => doc.truncate(at),
        4 => doc.push(random.bits() as u8),
        5 => doc.insert(at, random.bits() as u8),
        6 => {
            doc.remove(at);
        }
        // an offset that is off by a word, a slot or a number
        7 | 8 => change_word(doc, word, |w| {
            let step = random.pick(&[4, 8, 32, 128, 256]);
            if random.once_in(2) {
                w.wrapping_add(step)
            } else {
                w.wrapping_sub(step)
            }
        }),
        // another type, kind or low bits
        9 => change_word(doc, word, |w| w & !31 | random.below(8) as u32),
        // two words in the other order
        10 => {
            if word + 8 <= doc.len() {
                for i in word..word + 4 {
                    doc.swap(i, i + 4);
                }
            }
        }
        // no finite float, where one stands
        _ => {
            if at + 8 <= doc.len() {
                doc[at + 6] |= 0xF0;
                doc[at + 7] |= 0x7F;
            }
        }
    }
}

fn change_word(doc: &mut [u8], at: usize, change: impl FnOnce(u32) -> u32) {
    if let Some(bytes) = doc.get_mut(at..at + 4) {
        let word = u32::from_le_bytes([bytes[0], bytes[1], bytes[2], bytes[3]]);
        bytes.copy_from_slice(&change(word).to_le_bytes());
    }
}
