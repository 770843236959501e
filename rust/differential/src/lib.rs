//! The proved readers and the plain ones, compared on generated and spoilt documents, and on texts.
//!
//! A document is made from a seed, so that a failure can be made again; it is printed in hexadecimal if it is not long.

pub mod binary_json;
pub mod compare;
pub mod containers;
pub mod exports;
pub mod fractured_json;
pub mod large;
pub mod random;
pub mod spoil;

/// The longest document of either format, in bytes.
pub const LONGEST: usize = 16_777_216;

/// How deep containers may nest.
pub const DEEPEST: usize = 64;

/// A number that the environment may name.
fn named(variable: &str, otherwise: u64) -> u64 {
    let value = std::env::var(variable).ok();
    value.and_then(|n| n.parse().ok()).unwrap_or(otherwise)
}

/// How many documents of each format are compared, and pairs of short texts: as many as `CZUBROTEK_DOCUMENTS` says, else 110,000.
pub fn documents() -> u64 {
    named("CZUBROTEK_DOCUMENTS", 110_000)
}

/// How many large documents of each format are compared, and pairs of long texts: as many as `CZUBROTEK_LARGE_DOCUMENTS` says, else 400.
pub fn large_documents() -> u64 {
    named("CZUBROTEK_LARGE_DOCUMENTS", 400)
}

/// The first seed: `CZUBROTEK_SEED`, else 1.
pub fn first_seed() -> u64 {
    named("CZUBROTEK_SEED", 1)
}

/// A document in hexadecimal.
pub fn hex(bytes: &[u8]) -> String {
    bytes.iter().map(|b| format!("{b:02X}")).collect()
}

/// Cursors that are past the end of most documents.
pub const FAR: [u64; 14] = [
    65_535,
    65_536,
    LONGEST as u64 - 4,
    LONGEST as u64 - 1,
    LONGEST as u64,
    LONGEST as u64 + 4,
    (1 << 27) - 4,
    1 << 27,
    (1 << 32) - 1,
    1 << 32,
    1 << 63,
    u64::MAX - 7,
    u64::MAX - 3,
    u64::MAX,
];

/// The cursors at which a document is asked: every byte, a few past the end, and some far beyond.
pub fn cursors(len: usize) -> impl Iterator<Item = u64> {
    (0..len as u64 + 9).chain(FAR)
}

/// The indices that are asked for at a cursor.
pub const INDICES: [u64; 6] = [0, 1, 2, 5, 1 << 62, u64::MAX];
