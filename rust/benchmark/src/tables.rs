//! The tables, but for those of growth.

use crate::cases::{Case, Question};
use crate::checks::{
    binary_checks, distinct_keys, fractured_checks, keys_of_one_hash, list_checks,
};
use crate::hostile::texts_of_one_hash;
use crate::lookups::lookups;
use crate::questions::{binary_questions, fractured_questions};
use crate::shapes::names;

/// A case with a name.
pub struct Made {
    pub name: String,
    pub case: Case,
    /// How many values, keys, names, bytes, lookups or questions one call is: figures are per one of them.
    pub per: usize,
}

/// A row of a table. Its case is made when its turn comes, and is gone afterwards.
pub type Row = Box<dyn FnOnce() -> Made>;

pub fn row(name: impl Into<String>, make: impl FnOnce() -> (Case, usize) + 'static) -> Row {
    let name = name.into();
    Box::new(move || {
        let (case, per) = make();
        Made { name, case, per }
    })
}

#[derive(PartialEq)]
pub enum Kind {
    Checks,
    Questions,
    /// Rows of which each is larger than the one before.
    Rising,
    /// The same, of documents made by whoever knows the hash: timed in few rounds, and their instructions are not counted.
    Hostile,
}

pub struct Table {
    pub kind: Kind,
    pub name: &'static str,
    /// What a row is, and what its figures are.
    pub of: &'static str,
    pub unit: &'static str,
    pub rows: Vec<Row>,
}

pub fn tables() -> Vec<Table> {
    let table = |kind, name, of, unit, rows| Table {
        kind,
        name,
        of,
        unit,
        rows,
    };
    vec![
        table(
            Kind::Checks,
            "Check, BinaryJson",
            "document",
            "ns a value",
            binary_checks(),
        ),
        table(
            Kind::Checks,
            "Check, Fractured JSON",
            "document",
            "ns a value",
            fractured_checks(),
        ),
        table(
            Kind::Rising,
            "Check, Fractured JSON: distinct immediate keys",
            "document",
            "ns a key",
            distinct_keys(),
        ),
        table(
            Kind::Rising,
            "Check, key list",
            "list",
            "ns a name",
            list_checks(names),
        ),
        table(
            Kind::Questions,
            "Quick lookup",
            "object, key",
            "ns",
            lookups(Question::QuickLookup),
        ),
        table(
            Kind::Questions,
            "Plain scan",
            "object, key",
            "ns",
            lookups(Question::PlainScan),
        ),
        table(
            Kind::Questions,
            "Questions, BinaryJson",
            "question",
            "ns",
            binary_questions(),
        ),
        table(
            Kind::Questions,
            "Questions, Fractured JSON",
            "question",
            "ns",
            fractured_questions(),
        ),
        table(
            Kind::Hostile,
            "Check, Fractured JSON: 4,096 keys of one hash",
            "document",
            "ns a byte",
            keys_of_one_hash(),
        ),
        table(
            Kind::Hostile,
            "Check, key list: names of one hash",
            "list",
            "ns a name",
            list_checks(|n| texts_of_one_hash(n, 8)),
        ),
    ]
}
