//! The questions that are asked at places, each of both readers.

use crate::cases::{Call, Case, key_table};
use differential::exports::{self, timed};
use std::hint::black_box;

/// What a question may take.
struct With<'a> {
    doc: &'a [u8],
    list: &'a [u8],
    table: &'a [u32],
    count: u64,
    at: u64,
    index: u64,
    key: &'a [u8],
}

/// The key table of a document of Fractured JSON after its check, and the number of pairs in it.
pub fn checked_table(doc: &[u8], list: &[u8]) -> (Vec<u32>, u64) {
    let mut table = key_table();
    let count = plain::fractured_json::check(doc, list, &mut table).count;
    (table, count)
}

/// Declares questions, each with its call, which both readers have by one name, and what that takes after the document.
macro_rules! questions {
    ($($question:ident: $format:ident::$call:ident($($argument:ident),*);)*) => {
        #[derive(Clone, Copy, PartialEq)]
        pub enum Asked {
            $($question,)*
        }

        pub const ALL: &[Asked] = &[$(Asked::$question),*];

        impl Asked {
            /// Asks the proved reader at each place of a case; none may be refused.
            pub fn proved(self, case: &Case) -> Call<'_> {
                match self {
                    $(Asked::$question => at_places(case, |with| {
                        timed::$format::$call(with.doc, $(with.$argument),*) == 0
                    }),)*
                }
            }

            /// The same of the plain reader.
            pub fn plain(self, case: &Case) -> Call<'_> {
                match self {
                    $(Asked::$question => at_places(case, |with| {
                        black_box(plain::$format::$call(with.doc, $(with.$argument),*)).is_ok()
                    }),)*
                }
            }

            /// Asks both once at each place: their answers must be the same, and none refused.
            pub fn compare(self, case: &Case) {
                let mut call = match self {
                    $(Asked::$question => at_places(case, |with| {
                        let proved = exports::$format::$call(with.doc, $(with.$argument),*);
                        let plain = plain::$format::$call(with.doc, $(with.$argument),*);
                        assert_eq!(proved, plain);
                        plain.is_ok()
                    }),)*
                };
                call();
            }
        }
    };
}

questions! {
    BinaryKindAndSize: binary_json::kind_and_size(at);
    BinaryElement: binary_json::element(at, index);
    BinaryMember: binary_json::member(at, index);
    BinaryEntryType: binary_json::entry_type(at);
    BinaryContainer: binary_json::container(at);
    BinaryString: binary_json::string(at);
    BinaryNumber: binary_json::number(at);
    BinarySlot: binary_json::slot(at);

    FracturedEnd: fractured_json::end(list, table, count, at);
    FracturedKind: fractured_json::kind(list, at);
    FracturedNumber: fractured_json::number(list, at);
    FracturedString: fractured_json::string(list, at);
    FracturedElement: fractured_json::element(list, table, count, at, index);
    FracturedMember: fractured_json::member(list, table, count, at, index);
    FracturedFirstMember: fractured_json::first_member(list, table, count, at, key);
    FracturedKey: fractured_json::key(list, table, count, at);
}

/// A call that asks at each place of a case in turn. `ask` says whether there was an answer, as there must be.
fn at_places<'a>(case: &'a Case, ask: impl Fn(&With) -> bool + 'a) -> Call<'a> {
    let beside = |n: usize| case.beside.get(n).map_or(&[][..], |part| &part[..]);
    let list = beside(0);
    // of a BinaryJson document, which that check refuses, no question takes the table
    let (table, count) = checked_table(&case.bytes, list);
    Box::new(move || {
        for &(at, index) in &case.places {
            let answered = ask(&With {
                doc: black_box(&case.bytes),
                list,
                table: &table,
                count,
                at,
                index,
                key: beside(1 + index as usize),
            });
            assert!(answered, "a question is refused");
        }
    })
}
