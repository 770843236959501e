//! Texts of one hash, made by whoever knows the hash: rules 39 and 54 compare each of them with all before it.

const HALF: u64 = 1 << 32;
const FACTOR: u64 = 2_654_435_761;

fn scrambled(x: u64) -> u64 {
    let p = x % HALF * FACTOR;
    p / HALF + p % HALF
}

/// The hash of crates/text, for texts whose length is a multiple of 8.
fn hash(text: &[u8]) -> u64 {
    let (words, _) = text.as_chunks();
    let words = words.iter().map(|&word| u64::from_le_bytes(word));
    words.chain([0]).fold(0, |h, w| {
        scrambled(scrambled(h + w % HALF) + w / HALF) % HALF
    })
}

/// Texts of one hash and one length, a multiple of 8, that differ in the last eight bytes alone.
pub fn texts_of_one_hash(count: usize, length: usize) -> Vec<Vec<u8>> {
    // Scrambling multiplies modulo 2^32 - 1, but for a carry: what the low half of a word adds to the hash, this high half takes
    // away again.
    let text = |low: u64| {
        let high = HALF - 1 - low * FACTOR % (HALF - 1);
        let shared = vec![b's'; length - 8];
        [&shared[..], &(low + high * HALF).to_le_bytes()].concat()
    };
    let wanted = hash(&text(1));
    (1..)
        .map(text)
        .filter(|text| hash(text) == wanted)
        .take(count)
        .collect()
}
