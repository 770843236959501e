//! The order of containers: which is accepted, what is refused and where, and what the marks hold
//! afterwards.

mod oracle;

use std::collections::{BTreeMap, BTreeSet};

use plain::{Answer, Refusal, binary_json};

/// Marks before a check; none of them may matter.
const NOISES: [u8; 5] = [0x00, 0x01, 0x02, 0xA5, 0xFF];

/// The longest document, in bytes.
const LONGEST: usize = 16_777_216;

/// How deep containers may nest.
const DEEPEST: usize = 64;

const FALSE: [u8; 4] = [0; 4];
const TRUE: [u8; 4] = [1, 0, 0, 0];
const NULL: [u8; 4] = [2, 0, 0, 0];

fn word(low: u32, high: u32) -> [u8; 4] {
    (high << 5 | low).to_le_bytes()
}

/// The Meta of an array.
fn array(size: u32) -> [u8; 4] {
    word(0, size)
}

/// The Entry that names the container at an offset.
fn container(at: u32) -> [u8; 4] {
    word(5, at)
}

/// A document with these tree words, and with no string or number.
fn document(tree: &[[u8; 4]]) -> Vec<u8> {
    [&[word(1, 4 + 4 * tree.len() as u32)], tree, &[[0; 4]]]
        .concat()
        .concat()
}

fn refuse(number: u32, place: u64) -> Answer<()> {
    Err(Refusal { number, place })
}

/// The check with these marks lent; verdict and marks must be those of the oracle.
fn check(doc: &[u8], lent: &[u8]) -> (Answer<()>, Vec<u8>) {
    let mut marks = lent.to_vec();
    let verdict = binary_json::check(doc, &mut marks);
    let answer = (verdict, marks);
    assert_eq!(answer, oracle::check(doc, lent), "{doc:02X?}");
    answer
}

/// The verdict on a tree and its marks afterwards, whatever they held before and however many more
/// are lent.
fn expect(tree: &[[u8; 4]], verdict: Answer<()>, marks: &[u8]) {
    let doc = document(tree);
    assert_eq!(tree.len(), marks.len());
    for noise in NOISES {
        for more in 0..3 {
            let lent = vec![noise; tree.len() + more];
            let afterwards = [marks, &lent[..more]].concat();
            assert_eq!(check(&doc, &lent), (verdict, afterwards), "{tree:02X?}");
        }
    }
}

/// [[[]],[]] in all its orders.
#[test]
fn any_order_after_the_parent() {
    let (empty, one, two) = (array(0), array(1), array(2));
    let at = container;
    let orders = [
        [two, at(16), at(28), one, at(24), empty, empty],
        [two, at(16), at(24), one, at(28), empty, empty],
        [two, at(20), at(16), empty, one, at(28), empty],
    ];
    for tree in orders {
        expect(&tree, Ok(()), &[1; 7]);
    }
}

#[test]
fn named_twice() {
    // By two Entries of one container, not side by side.
    let tree = [array(3), container(20), NULL, container(20), array(0)];
    expect(&tree, refuse(14, 20), &[1; 5]);
    // By the root and by another child, whichever comes first.
    for (first, second) in [(16, 24), (24, 16)] {
        let tree = [
            array(2),
            container(first),
            container(second),
            array(1),
            container(24),
            array(0),
        ];
        expect(&tree, refuse(14, 24), &[1; 6]);
    }
    // With a gap behind it: 14 comes before 13.
    let tree = [array(2), container(16), container(16), array(0), FALSE];
    expect(&tree, refuse(14, 16), &[1, 1, 1, 1, 0]);
}

#[test]
fn rings() {
    // A container that names itself, its parent, and the header.
    for at in [12, 4, 0] {
        let tree = [array(1), container(12), array(1), container(at)];
        expect(&tree, refuse(9, 16), &[1; 4]);
    }
    // Two children that name one another: the one behind looks back.
    let tree = [
        array(1),
        container(12),
        array(1),
        container(20),
        array(1),
        container(12),
    ];
    expect(&tree, refuse(9, 24), &[1; 6]);
    // An Entry that names its own word is read as a Meta of kind 5.
    let tree = [array(1), container(12), array(1), container(16)];
    expect(&tree, refuse(8, 16), &[1; 4]);
}

#[test]
fn places_of_entries_refused() {
    // Every offset up to the end of the tree and past it, where only 12 is a container.
    for at in 0..32 {
        let tree = [array(1), container(at), array(0)];
        let (verdict, marks) = match at {
            12 => (Ok(()), [1, 1, 1]),
            _ if at % 4 != 0 || at <= 4 => (refuse(9, 8), [1, 1, 0]),
            _ => (refuse(8, at.into()), [1, 1, 0]),
        };
        expect(&tree, verdict, &marks);
    }
    // Out of step far past the document, and the last offset of all that is in step.
    let tree = |at| [array(1), container(at)];
    expect(&tree((1 << 27) - 1), refuse(9, 8), &[1, 1]);
    expect(&tree((1 << 27) - 4), refuse(8, (1 << 27) - 4), &[1, 1]);
    // Past its own parent's Meta is asked, not past the root's: a container that names a place before it,
    // though past the root's Meta.
    let tree = [array(1), container(16), array(0), array(1), container(12)];
    expect(&tree, refuse(9, 20), &[1, 1, 0, 1, 1]);
    // The root has no parent, and kind 2 no container.
    let tree = [word(2, 1), container(12), array(0)];
    expect(&tree, refuse(9, 8), &[1, 1, 0]);
}

#[test]
fn overlapping_bodies() {
    // A Meta inside its parent's own body: false is an empty array, true an empty object.
    for (value, at) in [(FALSE, 8), (TRUE, 8)] {
        let tree = [array(2), value, container(at)];
        expect(&tree, refuse(14, at.into()), &[1; 3]);
    }
    // Inside a body walked before, which is finished.
    let tree = [array(2), container(16), container(20), array(1), FALSE];
    expect(&tree, refuse(14, 20), &[1; 5]);
    // The one in front is walked later and reaches into the one behind: by its last word, by more.
    for size in [1, 2] {
        let tree = [
            array(2),
            container(20),
            container(16),
            array(size),
            array(1),
            FALSE,
            FALSE,
        ];
        expect(&tree, refuse(14, 16), &[1, 1, 1, 0, 1, 1, 0]);
    }
    // It ends where the other starts.
    let tree = [
        array(2),
        container(24),
        container(16),
        array(1),
        FALSE,
        array(1),
        FALSE,
    ];
    expect(&tree, Ok(()), &[1; 7]);
    // A body around another one, which is walked first.
    let tree = [
        array(2),
        container(24),
        container(16),
        array(3),
        FALSE,
        array(1),
        FALSE,
    ];
    expect(&tree, refuse(14, 16), &[1, 1, 1, 0, 0, 1, 1]);
    // Its size passes S: 8 comes before 14.
    let tree = [array(2), container(16), container(20), array(1), word(0, 1)];
    expect(&tree, refuse(8, 20), &[1; 5]);
}

#[test]
fn gaps() {
    // After the last body, between two, and in front of the only child.
    let tree = [array(1), container(12), array(0), FALSE];
    expect(&tree, refuse(13, 16), &[1, 1, 1, 0]);
    let tree = [
        array(2),
        container(16),
        container(24),
        array(0),
        FALSE,
        array(0),
    ];
    expect(&tree, refuse(13, 20), &[1, 1, 1, 1, 0, 1]);
    let tree = [array(1), container(16), FALSE, array(0)];
    expect(&tree, refuse(13, 12), &[1, 1, 0, 1]);
    // The first of two; what stands in a gap is not read.
    let gap = word(31, 999);
    let tree = [array(1), container(16), gap, array(1), NULL, gap, gap];
    expect(&tree, refuse(13, 12), &[1, 1, 0, 1, 1, 0, 0]);
    // A good container that no Entry names.
    let tree = [array(1), NULL, array(0)];
    expect(&tree, refuse(13, 12), &[1, 1, 0]);
    // Behind a top-level scalar.
    expect(&[word(2, 1), NULL, NULL], refuse(13, 12), &[1, 1, 0]);
    // The walk comes first: 9 behind the gap.
    let tree = [array(1), container(16), gap, array(1), word(6, 0)];
    expect(&tree, refuse(9, 20), &[1, 1, 0, 1, 1]);
}

/// Each level holds the next one and then an empty array, which stands in front of it.
#[test]
fn deepest_levels() {
    for depth in [DEEPEST, DEEPEST + 1] {
        let mut tree = Vec::new();
        for level in 1..depth as u32 {
            let next = 4 + 16 * level;
            tree.extend([array(2), container(next), container(next - 4), array(0)]);
        }
        tree.push(array(0));
        if depth == DEEPEST {
            expect(&tree, Ok(()), &vec![1; tree.len()]);
        } else {
            // No empty array has been come to.
            let marks = [[1, 1, 1, 0].repeat(DEEPEST), vec![0]].concat();
            expect(&tree, refuse(12, 4 + 16 * DEEPEST as u64), &marks);
        }
    }
}

/// 15 at S with too few marks, before anything of the tree is read and after 1 to 7; more than enough
/// are left alone.
#[test]
fn mark_buffers() {
    let good = [array(2), container(20), container(16), array(0), array(0)];
    let trees: [&[[u8; 4]]; 5] = [
        &good,
        &[array(2), container(16), container(16), array(0), NULL],
        &[word(3, 0), NULL],
        &[array(9)],
        &[array(1), word(9, 0), NULL, NULL],
    ];
    for tree in trees {
        let doc = document(tree);
        let string_index = 4 + 4 * tree.len() as u64;
        for noise in NOISES {
            for lent in 0..tree.len() + 5 {
                let lent = vec![noise; lent];
                let (verdict, marks) = check(&doc, &lent);
                let enough = lent.len() >= tree.len();
                assert_eq!(verdict == refuse(15, string_index), !enough);
                if enough {
                    assert!(marks[..tree.len()].iter().all(|&mark| mark <= 1));
                } else {
                    assert_eq!(marks, lent);
                }
            }
        }
    }
    // Refused by 1 to 7, with any marks.
    let mut longer = document(&good);
    longer.push(0);
    let mut version = document(&good);
    version[0] ^= 2;
    let slots = [&document(&good)[..24], &[1, 0, 0, 0]].concat();
    let text = [&slots[..], &word(0, 33), &[1]].concat();
    let order = [
        &slots[..24],
        &[2, 0, 0, 0],
        &word(0, 37),
        &word(0, 38),
        &[0, 0],
    ]
    .concat();
    let rows = [
        (&longer, refuse(7, 28)),
        (&version, refuse(3, 0)),
        (&slots, refuse(4, 24)),
        (&text, refuse(5, 28)),
        (&order, refuse(6, 32)),
        (&longer[..11].to_vec(), refuse(1, 11)),
        (&vec![1; LONGEST + 1], refuse(2, LONGEST as u64 + 1)),
    ];
    for (doc, verdict) in rows {
        for lent in [&[][..], &[0xA5], &[0xFF; 5], &[7; 9]] {
            assert_eq!(check(doc, lent), (verdict, lent.to_vec()));
        }
    }
}

/// The longest tree there can be, its last child first; exactly so many marks, and one fewer.
#[test]
fn longest_tree() {
    let words = (LONGEST - 8) / 4;
    let children = (words - 2) / 2;
    let first = 8 + 4 * (children as u32 + 1);
    let mut tree = vec![array(children as u32 + 1)];
    tree.extend((0..children as u32).rev().map(|k| container(first + 4 * k)));
    tree.push(NULL);
    tree.resize(words, array(0));
    let doc = document(&tree);
    assert_eq!((doc.len(), tree.len()), (LONGEST, 2 * children + 2));
    let mut marks = vec![0xA5; LONGEST / 4];
    assert_eq!(binary_json::check(&doc, &mut marks), Ok(()));
    assert!(marks[..words].iter().all(|&mark| mark == 1));
    assert!(marks[words..].iter().all(|&mark| mark == 0xA5));
    marks[0] = 7;
    let verdict = binary_json::check(&doc, &mut marks[..words - 1]);
    assert_eq!(verdict, refuse(15, LONGEST as u64 - 4));
    assert_eq!((marks[0], marks[1]), (7, 1));
    assert_eq!(binary_json::check(&doc, &mut marks[..words]), Ok(()));
    assert_eq!(marks[0], 1);
}

/// A small xorshift generator: the same numbers in every run.
struct Random(u64);

impl Random {
    fn below(&mut self, bound: usize) -> usize {
        self.0 ^= self.0 << 13;
        self.0 ^= self.0 >> 7;
        self.0 ^= self.0 << 17;
        (self.0 >> 11) as usize % bound
    }
}

/// What an Entry is to stand for.
#[derive(Clone, Copy)]
enum Item {
    Scalar(u32),
    String(u32),
    Number(u32),
    Child(usize),
}

/// A container to be laid out: an object with these texts as keys, or an array.
struct Node {
    keys: Option<Vec<u32>>,
    items: Vec<Item>,
}

impl Node {
    fn words(&self) -> u32 {
        let keys = self.keys.as_ref().map_or(0, Vec::len);
        (1 + keys + self.items.len()) as u32
    }

    fn children(&self) -> impl DoubleEndedIterator<Item = usize> {
        self.items.iter().filter_map(|item| match *item {
            Item::Child(child) => Some(child),
            _ => None,
        })
    }
}

/// The texts "a" to "p" and the numbers 0 to 3.
const TEXTS: u32 = 16;
const NUMBERS: u32 = 4;

/// A tree of so many containers, the root first.
fn random_tree(random: &mut Random, count: usize) -> Vec<Node> {
    let mut items: Vec<Vec<Item>> = vec![Vec::new(); count];
    for child in 1..count {
        let parent = &mut items[random.below(child)];
        parent.insert(random.below(parent.len() + 1), Item::Child(child));
    }
    let nodes = items.into_iter().map(|mut items| {
        for _ in 0..random.below(4) {
            let item = match random.below(3) {
                0 => Item::Scalar(random.below(3) as u32),
                1 => Item::String(random.below(TEXTS as usize) as u32),
                _ => Item::Number(random.below(NUMBERS as usize) as u32),
            };
            items.insert(random.below(items.len() + 1), item);
        }
        let object = random.below(2) == 0 && items.len() <= TEXTS as usize;
        let keys = object.then(|| {
            let mut keys: Vec<u32> = (0..TEXTS).collect();
            while keys.len() > items.len() {
                keys.remove(random.below(keys.len()));
            }
            keys
        });
        Node { keys, items }
    });
    nodes.collect()
}

/// The document of a tree whose containers stand in this order.
fn lay_out(nodes: &[Node], order: &[usize]) -> Vec<u8> {
    let mut places = vec![0; nodes.len()];
    let mut string_index = 4;
    for &k in order {
        places[k] = string_index;
        string_index += 4 * nodes[k].words();
    }
    let slot = |text: u32| string_index + 4 + 4 * text;
    let numbers = slot(TEXTS) + 2 * TEXTS;
    let mut doc = word(1, string_index).to_vec();
    for &k in order {
        let Node { keys, items } = &nodes[k];
        doc.extend(word(u32::from(keys.is_some()), items.len() as u32));
        for &key in keys.iter().flatten() {
            doc.extend(slot(key).to_le_bytes());
        }
        doc.extend(items.iter().flat_map(|item| match *item {
            Item::Scalar(entry_type) => word(entry_type, 77),
            Item::String(text) => word(3, slot(text)),
            Item::Number(number) => word(4, numbers + 8 * number),
            Item::Child(child) => container(places[child]),
        }));
    }
    doc.extend(TEXTS.to_le_bytes());
    doc.extend((1..=TEXTS).flat_map(|text| word(0, slot(TEXTS) + 2 * text)));
    doc.extend((0..TEXTS as u8).flat_map(|text| [b'a' + text, 0]));
    doc.extend((0..NUMBERS).flat_map(|number| f64::from(number).to_le_bytes()));
    doc
}

/// The containers in an order in which each stands after its parent; `next` picks one of those whose
/// parents stand.
fn order(nodes: &[Node], mut next: impl FnMut(usize) -> usize) -> Vec<usize> {
    let (mut open, mut order) = (vec![0], Vec::new());
    while !open.is_empty() {
        let k = open.remove(next(open.len()));
        open.extend(nodes[k].children());
        order.push(k);
    }
    order
}

fn depth_first(nodes: &[Node]) -> Vec<usize> {
    let (mut open, mut order) = (vec![0], Vec::new());
    while let Some(k) = open.pop() {
        open.extend(nodes[k].children().rev());
        order.push(k);
    }
    order
}

/// The tree below the container at a cursor, read by questions.
fn tree(doc: &[u8], at: u64) -> String {
    use binary_json::*;
    let (kind, size) = kind_and_size(doc, at).unwrap();
    let text = |(place, length): (u64, u64)| {
        String::from_utf8(doc[place as usize..(place + length) as usize].to_vec()).unwrap()
    };
    let mut members = Vec::new();
    for i in 0..size {
        let (key, entry) = match kind {
            1 => {
                let (key, entry) = member(doc, at, i).unwrap();
                (text(slot(doc, key).unwrap()) + ":", entry)
            }
            _ => (String::new(), element(doc, at, i).unwrap()),
        };
        let value = match entry_type(doc, entry).unwrap() {
            3 => format!("{:?}", text(string(doc, entry).unwrap())),
            4 => f64::from_bits(number(doc, entry).unwrap()).to_string(),
            5 => tree(doc, container(doc, entry).unwrap()),
            scalar => ["false", "true", "null"][scalar as usize].to_string(),
        };
        members.push(key + &value);
    }
    let members = members.join(",");
    match kind {
        1 => format!("{{{members}}}"),
        _ => format!("[{members}]"),
    }
}

/// Depth first, breadth first, the last sibling first and shuffled: all accepted, and one tree.
#[test]
fn one_tree_in_any_order() {
    let mut random = Random(3);
    let mut differing = 0;
    for _ in 0..300 {
        let count = 1 + random.below(30);
        let nodes = random_tree(&mut random, count);
        let first = lay_out(&nodes, &depth_first(&nodes));
        let mut docs = vec![
            lay_out(&nodes, &order(&nodes, |_| 0)),
            lay_out(&nodes, &order(&nodes, |open| open - 1)),
        ];
        for _ in 0..4 {
            docs.push(lay_out(&nodes, &order(&nodes, |open| random.below(open))));
        }
        differing += docs.iter().filter(|&doc| *doc != first).count();
        docs.push(first);
        let words = nodes.iter().map(Node::words).sum::<u32>() as usize;
        let meaning = tree(&docs[0], 4);
        for doc in &docs {
            let lent = vec![NOISES[random.below(5)]; words + random.below(3)];
            let marks = [&vec![1; words][..], &lent[words..]].concat();
            assert_eq!(check(doc, &lent), (Ok(()), marks));
            assert_eq!(tree(doc, 4), meaning);
        }
    }
    assert!(differing > 1_000, "only {differing} orders");
}

/// A child that stands before its parent is 9 at the Entry that names it.
#[test]
fn no_child_before_its_parent() {
    let mut random = Random(4);
    let mut refused = 0;
    for _ in 0..2_000 {
        let count = 2 + random.below(8);
        let nodes = random_tree(&mut random, count);
        let mut any = depth_first(&nodes);
        for k in 2..count {
            any.swap(k, 1 + random.below(k));
        }
        let after = |parent: usize, child: usize| {
            let place = |k: usize| any.iter().position(|&one| one == k);
            place(parent) < place(child)
        };
        let good = (0..count).all(|k| nodes[k].children().all(|child| after(k, child)));
        let doc = lay_out(&nodes, &any);
        let (verdict, _) = check(&doc, &vec![0xA5; doc.len() / 4]);
        assert_eq!(verdict.is_ok(), good);
        assert!(good || verdict.is_err_and(|refusal| refusal.number == 9));
        refused += u32::from(!good);
    }
    assert!((500..1_500).contains(&refused), "{refused} refused");
}

/// Whether each container, each Entry and each word is as the request's first sentence on what is
/// accepted has it, in a tree whose words are Metas of arrays, false with any value field, and
/// container Entries.
fn lawful(tree: &[[u8; 4]]) -> bool {
    let end = 4 + 4 * tree.len() as u32;
    let split = |place: u32| {
        let word = u32::from_le_bytes(tree[place as usize / 4 - 1]);
        (word % 32, word / 32)
    };
    // All that the root leads to, with who names it.
    let mut reached = BTreeSet::from([4]);
    let mut named: BTreeMap<u32, Vec<u32>> = BTreeMap::new();
    let mut open = vec![4];
    while let Some(at) = open.pop() {
        if at % 4 != 0
            || at < 4
            || at >= end
            || split(at).0 != 0
            || split(at).1 > (end - at) / 4 - 1
        {
            return false;
        }
        for entry in 0..split(at).1 {
            if let (5, child) = split(at + 4 + 4 * entry) {
                named.entry(child).or_default().push(at);
                if reached.insert(child) {
                    open.push(child);
                }
            }
        }
    }
    let mut bodies = vec![0; tree.len()];
    for &at in &reached {
        for place in (at..=at + 4 * split(at).1).step_by(4) {
            bodies[place as usize / 4 - 1] += 1;
        }
    }
    let after_parent = |(child, parents): (&u32, &Vec<u32>)| parents.iter().all(|at| at < child);
    named.iter().all(after_parent)
        && named.values().all(|parents| parents.len() == 1)
        && bodies.iter().all(|&count| count == 1)
}

/// Good trees with a few words changed: accepted exactly if the request's sentence holds of them.
#[test]
fn accepted_exactly_if_lawful() {
    let mut random = Random(5);
    let mut numbers: BTreeMap<u32, u32> = BTreeMap::new();
    for _ in 0..60_000 {
        let count = 1 + random.below(7);
        let mut nodes = random_tree(&mut random, count);
        for node in &mut nodes {
            node.keys = None;
            for item in &mut node.items {
                if !matches!(item, Item::Child(_)) {
                    *item = Item::Scalar(0);
                }
            }
        }
        let doc = lay_out(&nodes, &order(&nodes, |open| random.below(open)));
        let words = nodes.iter().map(Node::words).sum::<u32>() as usize;
        let mut tree: Vec<[u8; 4]> = doc.as_chunks().0[1..=words].to_vec();
        for entry in &mut tree {
            if *entry == word(0, 77) {
                *entry = word(0, random.below(4) as u32);
            }
        }
        for _ in 0..random.below(4) {
            let (at, other) = (random.below(words), random.below(words));
            let place = 4 + 4 * other as u32;
            match random.below(8) {
                0 => tree.swap(at, other),
                1 => tree[at] = container(place),
                2 => tree[at] = container(place + random.below(4) as u32),
                3 => tree[at] = word(0, random.below(4) as u32),
                4 => tree[at] = tree[other],
                5 => tree.push(FALSE),
                6 => tree.insert(at, word(0, random.below(2) as u32)),
                _ => tree[at] = word(tree[at][0].into(), 0),
            }
        }
        if tree.iter().any(|word| ![0, 5].contains(&(word[0] % 32))) {
            continue;
        }
        let doc = document(&tree);
        let lent = vec![NOISES[random.below(5)]; tree.len() + random.below(3)];
        let (verdict, _) = check(&doc, &lent);
        assert_eq!(verdict.is_ok(), lawful(&tree), "{tree:02X?}");
        let number = verdict.map_or_else(|refusal| refusal.number, |()| 0);
        *numbers.entry(number).or_default() += 1;
    }
    // Accepted, and refused by 8, 9, 13 and 14, each often.
    assert_eq!(
        numbers.keys().copied().collect::<Vec<_>>(),
        [0, 8, 9, 13, 14]
    );
    assert!(numbers.values().all(|&count| count > 1_000), "{numbers:?}");
}

/// Documents of all kinds with a few words or bytes changed and any number of marks: verdict and marks
/// are the oracle's.
#[test]
fn spoilt_orders() {
    let mut random = Random(6);
    let mut numbers: BTreeMap<u32, u32> = BTreeMap::new();
    for _ in 0..40_000 {
        let count = 1 + random.below(9);
        let nodes = random_tree(&mut random, count);
        let mut doc = lay_out(&nodes, &order(&nodes, |open| random.below(open)));
        let words = nodes.iter().map(Node::words).sum::<u32>() as usize;
        for _ in 0..random.below(4) {
            let at = 4 + 4 * random.below(words);
            match random.below(6) {
                0 => doc[at] ^= 1 << random.below(5),
                1 => {
                    let other = 4 + 4 * random.below(words);
                    doc.copy_within(other..other + 4, at);
                }
                2 => {
                    let place = 4 * random.below(words + 3);
                    doc[at..at + 4].copy_from_slice(&container(place as u32));
                }
                3 => doc[at] = doc[at].wrapping_add(32),
                4 => {
                    let byte = random.below(doc.len());
                    doc[byte] ^= 1 << random.below(8);
                }
                _ => {
                    let other = 4 + 4 * random.below(words);
                    for i in 0..4 {
                        doc.swap(at + i, other + i);
                    }
                }
            }
        }
        let lent: Vec<u8> = (0..words + random.below(6))
            .skip(random.below(4))
            .map(|_| random.below(256) as u8)
            .collect();
        let (verdict, _) = check(&doc, &lent);
        let number = verdict.map_or_else(|refusal| refusal.number, |()| 0);
        *numbers.entry(number).or_default() += 1;
    }
    for number in [0, 8, 9, 11, 13, 14, 15] {
        assert!(numbers[&number] > 200, "{numbers:?}");
    }
}
