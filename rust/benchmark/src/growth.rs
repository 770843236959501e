//! Documents of about 64 KB, 1 MB and 16 MB of one shape, whose checks should take the same time a byte.

use crate::cases::Case;
use crate::checks::{
    OTHER_ORDERS, Writer, binary_document, fractured_check, fractured_document, is_other,
};
use crate::lengths::{LENGTHS, MOST_KEYS, filled, full_room, repeated};
use crate::overlaps::{last_word_marked, named_twice};
use crate::shapes::{any_value, array, key, member, names, numbers, object, objects_of, season};
use crate::tables::Made;
use differential::DEEPEST;
use documents::Tree;

/// A shape, whose case is made for a length that its document does not pass.
pub struct Growing {
    name: String,
    make: Box<dyn Fn(usize) -> Case>,
}

impl Growing {
    /// The cases of the three lengths.
    pub fn made(&self) -> [Made; 3] {
        LENGTHS.map(|(length, _)| {
            let case = (self.make)(length);
            Made {
                name: self.name.clone(),
                per: case.bytes.len(),
                case,
            }
        })
    }
}

fn growing(name: impl Into<String>, make: impl Fn(usize) -> Case + 'static) -> Growing {
    Growing {
        name: name.into(),
        make: Box::new(make),
    }
}

pub struct Growth {
    pub name: &'static str,
    pub shapes: Vec<Growing>,
}

pub fn tables() -> [Growth; 2] {
    [
        Growth {
            name: "Growth, BinaryJson",
            shapes: binary_shapes(),
        },
        Growth {
            name: "Growth, Fractured JSON",
            shapes: fractured_shapes(),
        },
    ]
}

/// A shape by its name, and its tree of so many parts.
type Parts = (&'static str, fn(usize) -> Tree);

/// The shapes that both formats have.
fn shapes() -> Vec<Parts> {
    vec![
        ("season", season),
        ("deepest arrays", |n| {
            array(n, |_| chain(|inner| Tree::Array(vec![inner])))
        }),
        ("deepest objects", |n| {
            array(n, |_| chain(|inner| Tree::Object(vec![member("a", inner)])))
        }),
        ("empty arrays", |n| array(n, |_| Tree::Array(vec![]))),
        ("empty objects", |n| array(n, |_| Tree::Object(vec![]))),
        ("nulls", |n| array(n, |_| Tree::Null)),
        ("numbers", numbers),
        ("strings of 8 bytes", |n| {
            array(n, |i| Tree::Text(format!("{i:08}").into_bytes()))
        }),
        ("objects of 4 members", |n| {
            let keys: Vec<_> = (0..4).map(|i| key(i, 1, 0)).collect();
            objects_of(&keys, 4, n)
        }),
        ("values of all kinds in random order", |n| {
            let values = random().take(n).map(|x| any_value(x >> 16, x));
            Tree::Array(values.collect())
        }),
    ]
}

/// Containers from level 2 to the deepest, the last of them empty.
fn chain(around: fn(Tree) -> Tree) -> Tree {
    (3..=DEEPEST).fold(Tree::Array(vec![]), |inner, _| around(inner))
}

/// Numbers in no order, none of them twice in the first 2^32.
fn random() -> impl Iterator<Item = u32> {
    std::iter::successors(Some(1_u32), |x| {
        Some(x.wrapping_mul(1_664_525).wrapping_add(1_013_904_223))
    })
}

fn binary_shapes() -> Vec<Growing> {
    let filled_by = |name: String, tree: fn(usize) -> Tree, write: Writer| {
        growing(name, move |length| {
            Case::binary_check(filled(length, tree, write).1)
        })
    };
    let of_parts = |(name, tree): Parts| filled_by(name.to_string(), tree, binary_document);
    let in_other_orders = OTHER_ORDERS.into_iter().flat_map(|(order, write)| {
        let others = shapes()
            .into_iter()
            .filter(move |(_, tree)| is_other(write, &tree(64)));
        others.map(move |(name, tree)| filled_by(format!("{name}, {order}"), tree, write))
    });
    let of_tree = |name, tree: fn(usize) -> Tree| {
        growing(name, move |length| {
            Case::binary_check(binary_document(&tree(length)))
        })
    };
    let own: [Parts; 3] = [
        ("one object", |n| object(n, 4, 0)),
        ("strings that share 248 bytes", |n| {
            array(n, |i| Tree::Text(alike(248, i)))
        }),
        ("numbers named in random order", |n| {
            let numbers = random().take(n).map(|x| Tree::number(x.into()));
            Tree::Array(numbers.collect())
        }),
    ];
    shapes()
        .into_iter()
        .chain(own)
        .map(of_parts)
        .chain([
            of_tree("two strings, alike to the last bytes", |length| {
                array(2, |i| Tree::Text(alike(length / 2 - 32, i)))
            }),
            of_tree("one string", |length| Tree::Text(vec![b's'; length - 32])),
        ])
        .chain(in_other_orders)
        .chain([
            growing(
                "refused: an array whose last word is marked",
                last_word_marked,
            ),
            growing("refused: empty arrays, one named twice", named_twice),
        ])
        .collect()
}

/// The i-th of texts that share so many bytes, and have four more.
fn alike(shared: usize, i: usize) -> Vec<u8> {
    [vec![b's'; shared], key(i, 4, 0)].concat()
}

fn fractured_shapes() -> Vec<Growing> {
    let of_parts = |(name, tree): Parts| {
        growing(name, move |length| {
            fractured_check(filled(length, tree, fractured_document).1)
        })
    };
    let back_references: Parts = ("4,096 keys, then back references", |n| {
        let keys: Vec<_> = (0..MOST_KEYS).map(|i| key(i, 2, 0)).collect();
        objects_of(&keys, 64, n)
    });
    shapes()
        .into_iter()
        .chain([back_references])
        .map(of_parts)
        .chain([
            growing("4,096 keys, as long as fit", |length| {
                full_room(length, |count, length| {
                    (0..count).map(|i| alike(length - 4, i)).collect()
                })
            }),
            growing("global keys, 65,535 names", global_keys),
            growing("tiny ints", |length| repeated(length, &[0xDE])),
            growing("ints of 16 bits", |length| repeated(length, &[0x05, 1, 2])),
            growing("one string", |length| {
                fractured_check(fractured_document(&Tree::Text(vec![b's'; length - 8])))
            }),
        ])
        .collect()
}

/// Objects whose keys are all names of the longest key list in turn.
fn global_keys(length: usize) -> Case {
    let names = names(65_535);
    let (_, doc) = filled(
        length,
        |n| objects_of(&names, 64, n),
        |tree| documents::fractured_json::document(tree, &names),
    );
    Case::fractured_check(doc, documents::fractured_json::key_list(&names))
}
