//! Spoiling how the containers of a BinaryJson document stand: which Entry names which, where, and how long they are.

use crate::binary_json::{string_index, word};
use crate::random::Random;

const ARRAY: usize = 0;
const OBJECT: usize = 1;
const NULL: usize = 2;
const CONTAINER: usize = 5;

/// Where a container stands.
#[derive(Clone, Copy)]
struct Body {
    meta: usize,
    /// Its first Entry.
    entries: usize,
    end: usize,
}

/// An Entry and the Meta of the container that holds it.
#[derive(Clone, Copy)]
struct Entry {
    at: usize,
    parent: usize,
}

/// The words of a document's tree.
struct Tree {
    bodies: Vec<Body>,
    /// The Entries that name containers.
    naming: Vec<Entry>,
    /// All other Entries.
    scalars: Vec<Entry>,
}

impl Tree {
    /// Read from body to body, whatever their order; a body that passes the tree ends with it.
    fn new(doc: &[u8]) -> Self {
        let mut tree = Tree {
            bodies: Vec::new(),
            naming: Vec::new(),
            scalars: Vec::new(),
        };
        let past = string_index(doc);
        let mut meta = 4;
        while meta < past {
            let (kind, n) = fields(doc, meta);
            let keys = if kind == OBJECT { n } else { 0 };
            let entries = past.min(meta + 4 + 4 * keys);
            let end = past.min(entries + 4 * n);
            tree.bodies.push(Body { meta, entries, end });
            for at in (entries..end).step_by(4) {
                let of_its_sort = match fields(doc, at) {
                    (CONTAINER, _) => &mut tree.naming,
                    _ => &mut tree.scalars,
                };
                of_its_sort.push(Entry { at, parent: meta });
            }
            meta = end;
        }
        tree
    }
}

/// The two fields of a word.
fn fields(doc: &[u8], at: usize) -> (usize, usize) {
    let word = word(doc, at) as usize;
    (word & 31, word >> 5)
}

fn put(doc: &mut [u8], at: usize, low: usize, high: usize) {
    let word = (high << 5 | low) as u32;
    doc[at..at + 4].copy_from_slice(&word.to_le_bytes());
}

/// Spoils a document once, if its tree has what there is to spoil; it may keep the rules even so. All but its
/// containers must be good.
pub fn spoil_containers(random: &mut Random, doc: &mut [u8]) -> Option<()> {
    let tree = Tree::new(doc);
    match random.below(10) {
        0..=2 => name_another(random, doc, &tree),
        3 | 4 => overlap(random, doc, &tree),
        5 => lengthen(random, doc, &tree),
        6 | 7 => leave_out(random, doc, &tree),
        // two Entries name what the other named
        8 => {
            let [a, b] = [any(random, &tree.naming)?, any(random, &tree.naming)?];
            let [(_, first), (_, second)] = [a, b].map(|entry| fields(doc, entry.at));
            put(doc, a.at, CONTAINER, second);
            put(doc, b.at, CONTAINER, first);
            Some(())
        }
        // a container that no Entry names
        _ => {
            put(doc, any(random, &tree.naming)?.at, NULL, 0);
            Some(())
        }
    }
}

/// Any of these; often the last.
fn any<T: Copy>(random: &mut Random, of: &[T]) -> Option<T> {
    match random.below(4) {
        0 => of.last().copied(),
        _ => (!of.is_empty()).then(|| random.pick(of)),
    }
}

/// Any Entry; mostly one that names a container.
fn any_entry(random: &mut Random, tree: &Tree) -> Option<Entry> {
    let mut entries = [&tree.naming, &tree.scalars];
    if random.once_in(4) {
        entries.reverse();
    }
    entries.iter().find_map(|entries| any(random, entries))
}

/// An Entry comes to name another place.
fn name_another(random: &mut Random, doc: &mut [u8], tree: &Tree) -> Option<()> {
    let entry = any_entry(random, tree)?;
    let (before, after) = {
        let parent = tree.bodies.partition_point(|b| b.meta < entry.parent);
        (&tree.bodies[..parent], &tree.bodies[parent + 1..])
    };
    let end = string_index(doc);
    let (_, named) = fields(doc, entry.at);
    let place = match random.below(12) {
        // one that may stand here, and is named already
        0..=3 => any(random, after)?.meta,
        // a ring
        4 => any(random, before)?.meta,
        5 => random.pick(&[0, 4, entry.parent - 4, entry.parent]),
        6 => entry.at,
        7 => random.pick(&[end - 4, end, end + 4]),
        8 => random.pick(&[doc.len(), (1 << 27) - 4, (1 << 27) - 1]),
        // no multiple of 4
        9 => named / 4 * 4 + 1 + random.below(3),
        // off by a word
        10 => random.pick(&[named.saturating_sub(4), named + 4]),
        _ => 4 * (1 + random.below(end / 4 - 1)),
    };
    put(doc, entry.at, CONTAINER, place);
    Some(())
}

/// An Entry that is false or true is named as the Meta that it looks like: its container stands inside another's body.
fn overlap(random: &mut Random, doc: &mut [u8], tree: &Tree) -> Option<()> {
    let inside = any(random, &tree.scalars)?.at;
    let entry = any_entry(random, tree)?.at;
    put(doc, inside, random.pick(&[ARRAY, OBJECT]), random.below(4));
    put(doc, entry, CONTAINER, inside);
    Some(())
}

/// A container gets more Entries, which stand in what follows it.
fn lengthen(random: &mut Random, doc: &mut [u8], tree: &Tree) -> Option<()> {
    let meta = any(random, &tree.bodies)?.meta;
    let (kind, n) = fields(doc, meta);
    put(doc, meta, kind, n + random.pick(&[1, 1, 2, 7]));
    Some(())
}

/// A container loses its last element or member: words are left out behind it, or one before it and the rest behind.
fn leave_out(random: &mut Random, doc: &mut [u8], tree: &Tree) -> Option<()> {
    let parent = any_entry(random, tree)?.parent;
    let found = tree.bodies.binary_search_by_key(&parent, |b| b.meta);
    let Body { meta, entries, end } = tree.bodies[found.ok()?];
    let (kind, n) = fields(doc, meta);
    put(doc, meta, kind, n - 1);
    if kind == OBJECT {
        // its last KeyEntry goes behind the Entries
        doc[entries - 4..end].rotate_left(4);
    }
    let named_by = (tree.naming.iter()).find(|entry| fields(doc, entry.at) == (CONTAINER, meta));
    if let Some(entry) = named_by
        && random.once_in(2)
    {
        // the last word comes first
        put(doc, entry.at, CONTAINER, meta + 4);
        doc[meta..end].rotate_right(4);
    }
    Some(())
}
