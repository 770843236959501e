//! Rows of the checks.

use crate::cases::Case;
use crate::hostile::texts_of_one_hash;
use crate::lengths::{LENGTHS, filled, full_room};
use crate::shapes::{Shape, digits, names, object, objects_of, season, shapes, values};
use crate::tables::{Row, row};
use differential::LONGEST;
use documents::Tree;
use documents::binary_json::{Order, document_in};

/// Writes the document of a tree.
pub type Writer = fn(&Tree) -> Vec<u8>;

pub fn binary_document(tree: &Tree) -> Vec<u8> {
    documents::binary_json::document(tree, &Tree::Null)
}

/// BinaryJson in other orders of containers than depth first, by their names.
pub const OTHER_ORDERS: [(&str, Writer); 2] = [
    ("breadth first", |tree| {
        document_in(tree, &Tree::Null, Order::BreadthFirst)
    }),
    ("shuffled", |tree| {
        document_in(tree, &Tree::Null, Order::Shuffled(1))
    }),
];

/// Whether this writes another document than depth first.
pub fn is_other(write: Writer, tree: &Tree) -> bool {
    write(tree) != binary_document(tree)
}

pub fn fractured_document(tree: &Tree) -> Vec<u8> {
    documents::fractured_json::document(tree, &[])
}

/// The check of a document that is lent the key list 00 00 00.
pub fn fractured_check(doc: Vec<u8>) -> Case {
    Case::fractured_check(doc, documents::fractured_json::key_list(&[]))
}

pub fn binary_checks() -> Vec<Row> {
    let of_shape = |name, tree: Tree, write: Writer| {
        row(name, move || {
            (Case::binary_check(write(&tree)), values(&tree))
        })
    };
    let mut rows: Vec<Row> = shapes()
        .into_iter()
        .map(|Shape { name, tree }| of_shape(name.to_string(), tree, binary_document))
        .collect();
    rows.push(season_row("season", binary_document, Case::binary_check));
    for (order, write) in OTHER_ORDERS {
        let others = shapes().into_iter();
        for Shape { name, tree } in others.filter(|shape| is_other(write, &shape.tree)) {
            rows.push(of_shape(format!("{name}, {order}"), tree, write));
        }
        let name = format!("season, {order}");
        rows.push(season_row(name, write, Case::binary_check));
    }
    rows
}

pub fn fractured_checks() -> Vec<Row> {
    shapes()
        .into_iter()
        .map(|Shape { name, tree }| {
            row(name, move || {
                (fractured_check(fractured_document(&tree)), values(&tree))
            })
        })
        .chain([
            global_row(),
            season_row("season", fractured_document, fractured_check),
        ])
        .collect()
}

/// Sixteen objects that have all keys of a list each.
fn global_row() -> Row {
    row("16 objects of 256 global keys", || {
        let names = names(256);
        let tree = objects_of(&names, names.len(), 16);
        let doc = documents::fractured_json::document(&tree, &names);
        let list = documents::fractured_json::key_list(&names);
        (Case::fractured_check(doc, list), values(&tree))
    })
}

/// The season, with as many steps as a document can have.
fn season_row(name: impl Into<String>, write: Writer, check: fn(Vec<u8>) -> Case) -> Row {
    row(name, move || {
        let (tree, doc) = filled(LONGEST, season, write);
        (check(doc), values(&tree))
    })
}

pub fn distinct_keys() -> Vec<Row> {
    let of_keys = |n| {
        row(format!("{n} keys"), move || {
            let tree = object(n, digits(n), 0);
            (fractured_check(fractured_document(&tree)), n)
        })
    };
    [256, 1024, 4096].map(of_keys).into()
}

pub fn list_checks(names: fn(usize) -> Vec<Vec<u8>>) -> Vec<Row> {
    let of_names = |n| {
        row(format!("{n} names"), move || {
            let list = documents::fractured_json::key_list(&names(n));
            (Case::list_check(list), n)
        })
    };
    [256, 4096, 65_535].map(of_names).into()
}

pub fn keys_of_one_hash() -> Vec<Row> {
    let of_length = |(length, name)| {
        row(name, move || {
            let case = full_room(length, texts_of_one_hash);
            let bytes = case.bytes.len();
            (case, bytes)
        })
    };
    LENGTHS.map(of_length).into()
}
