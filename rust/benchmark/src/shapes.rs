//! The trees that are timed as documents.

use documents::Tree;

/// A tree with a name.
pub struct Shape {
    pub name: &'static str,
    pub tree: Tree,
}

pub fn values(tree: &Tree) -> usize {
    1 + tree.children().map(values).sum::<usize>()
}

fn shape(name: &'static str, tree: Tree) -> Shape {
    Shape { name, tree }
}

pub fn member(key: &str, value: Tree) -> (Vec<u8>, Tree) {
    (key.as_bytes().to_vec(), value)
}

/// How many steps a night has, which is about 50 KB as BinaryJson.
const NIGHT: usize = 240;

/// Nights in a greenhouse, each a bit warmer than the one before: steps with a time, sensors and what the controller should do.
fn scenario(name: &str, steps: usize) -> Tree {
    let steps = (0..steps).map(|i| {
        let (warmer, x) = ((i / NIGHT) as f64 * 0.0371, (i % NIGHT) as f64);
        let sensor = |n: f64| {
            Tree::Object(vec![
                member("air", Tree::number(12.5 - x / 40.0 + n + warmer)),
                member("humidity", Tree::number(70.0 + n)),
                member("soil", Tree::number(14.0 - x / 100.0 + warmer)),
            ])
        };
        Tree::Object(vec![
            member(
                "expected",
                Tree::Object(vec![
                    member("heat", Tree::Bool(i % NIGHT > 60)),
                    member(
                        "note",
                        Tree::text(if i % 5 == 0 { "frost" } else { "calm" }),
                    ),
                    member(
                        "vents",
                        Tree::Array((0..4).map(|v| Tree::number((v * i % 7) as f64)).collect()),
                    ),
                ]),
            ),
            member(
                "sensors",
                Tree::Array(vec![sensor(0.0), sensor(0.5), sensor(1.0)]),
            ),
            member("time", Tree::number(i as f64 * 60.0)),
        ])
    });
    Tree::Object(vec![
        member("name", Tree::text(name)),
        member("steps", Tree::Array(steps.collect())),
    ])
}

/// A growing season of so many steps.
pub fn season(steps: usize) -> Tree {
    scenario("season", steps)
}

/// What keys may share: so many of its last bytes.
const PREFIX: &[u8; 24] = b"greenhouse/north/sensor/";

/// The i-th key: so many digits of base 64, after a prefix of so many bytes, at most 24. Keys ascend with i.
pub fn key(i: usize, digits: u32, prefix: usize) -> Vec<u8> {
    let digits = (0..digits).rev().map(|d| b'0' + (i >> (6 * d) & 63) as u8);
    let prefix = &PREFIX[PREFIX.len() - prefix..];
    prefix.iter().copied().chain(digits).collect()
}

/// How many digits the keys of an object have.
pub fn digits(members: usize) -> u32 {
    if members <= 4096 { 2 } else { 3 }
}

pub fn object(members: usize, digits: u32, prefix: usize) -> Tree {
    Tree::Object(
        (0..members)
            .map(|i| (key(i, digits, prefix), Tree::Bool(i % 3 == 0)))
            .collect(),
    )
}

/// The names of a key list, twelve bytes each.
pub fn names(count: usize) -> Vec<Vec<u8>> {
    (0..count)
        .map(|i| format!("sensor/{i:05}").into_bytes())
        .collect()
}

/// Objects of so many members each, which take their keys from a row of keys in turn, over and over.
pub fn objects_of(keys: &[Vec<u8>], members: usize, objects: usize) -> Tree {
    let mut keys = keys.iter().cycle();
    let mut object = || {
        let members = keys.by_ref().take(members);
        Tree::Object(members.map(|k| (k.clone(), Tree::Null)).collect())
    };
    Tree::Array((0..objects).map(|_| object()).collect())
}

fn levels(n: usize) -> Tree {
    (0..n).fold(Tree::Array(vec![]), |inner, _| {
        Tree::Object(vec![
            member("a", Tree::Null),
            member("b", inner),
            member("c", Tree::Bool(true)),
        ])
    })
}

pub fn array(n: usize, item: impl FnMut(usize) -> Tree) -> Tree {
    Tree::Array((0..n).map(item).collect())
}

/// An array of binary64 numbers.
pub fn numbers(n: usize) -> Tree {
    array(n, |i| Tree::number(i as f64 / 8.0))
}

/// A value of the kind that the last three bits of `kind` choose. A number is `number`, a Boolean says whether that is
/// not 0.
pub fn any_value(kind: u32, number: u32) -> Tree {
    match kind & 7 {
        0 => Tree::Null,
        1 => Tree::Bool(number != 0),
        2 => Tree::number(number.into()),
        3 => Tree::text("frost"),
        4 => Tree::Array(vec![]),
        5 => Tree::Array(vec![Tree::Null]),
        6 => Tree::Object(vec![]),
        _ => Tree::Object(vec![member("air", Tree::Null)]),
    }
}

/// Four containers of sixteen: values of all kinds, containers, numbers, and members with strings. Every second key of
/// these members is met before, among the containers, so that as Fractured JSON it is a back reference.
pub fn sixteens() -> Tree {
    let container = |i| match i % 2 {
        0 => numbers(1),
        _ => Tree::Object(vec![(key(i, 2, 0), Tree::Null)]),
    };
    let string = |i| (key(i, 2, 0), Tree::Text(format!("{i:08}").into_bytes()));
    Tree::Object(vec![
        member(
            "any",
            Tree::Array((0..16).map(|i| any_value(i, i / 8)).collect()),
        ),
        member("containers", Tree::Array((0..16).map(container).collect())),
        member("numbers", numbers(16)),
        member("strings", Tree::Object((0..16).map(string).collect())),
    ])
}

pub fn shapes() -> Vec<Shape> {
    let deep = (0..60).map(|_| levels(28)).collect();
    vec![
        shape("nested scenario", scenario("frost night", NIGHT)),
        shape("object of 4", object(4, 2, 0)),
        shape("object of 64", object(64, 2, 0)),
        shape("object of 4,096", object(4096, 2, 0)),
        shape("object of 64, prefix of 24", object(64, 2, 24)),
        shape("object of 1,600, prefix of 24", object(1600, 2, 24)),
        shape("array of numbers", numbers(4000)),
        shape("30 levels", Tree::Array(deep)),
    ]
}
