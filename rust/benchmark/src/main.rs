//! Times the proved readers and the plain ones in one process and prints tables of the ratios: `cargo run --release -p benchmark`.
//! With an argument, only the tables whose names contain it: `cargo run --release -p benchmark -- lookup`.
//!
//! Where valgrind is installed, the instructions of one call stand beside the times.

mod asked;
mod cases;
mod checks;
mod growth;
mod hostile;
mod instructions;
mod lengths;
mod lookups;
mod overlaps;
mod print;
mod questions;
mod shapes;
mod tables;
mod time;

use instructions::Counter;
use print::Measured;
use std::{env, mem};
use tables::{Kind, Made};

/// How few rounds a long call may have; a hostile one may have none but the first.
const LEAST_ROUNDS: usize = 3;

/// The figures of cases that are timed together.
fn measure<const N: usize>(made: [Made; N], hostile: bool, counter: &mut Counter) -> [Measured; N] {
    let least = if hostile { 0 } else { LEAST_ROUNDS };
    let mut times = time::of_cases(made.each_ref().map(|made| &made.case), least).into_iter();
    made.map(|made| Measured {
        bytes: made.case.bytes.len(),
        times: times.next().expect("each case is timed"),
        counts: (!hostile).then(|| counter.count(&made.case)).flatten(),
        name: made.name,
        per: made.per,
    })
}

fn main() {
    // every name contains the empty one
    let wanted = env::args().nth(1).unwrap_or_default();
    if wanted == instructions::COUNTED {
        return instructions::serve();
    }
    let mut counter = Counter::start();
    let tables = tables::tables().into_iter();
    for mut table in tables.filter(|table| table.name.contains(&wanted)) {
        let hostile = table.kind == Kind::Hostile;
        let rows: Vec<_> = mem::take(&mut table.rows)
            .into_iter()
            .flat_map(|make| measure([make()], hostile, &mut counter))
            .collect();
        print::table(&table, &rows);
    }
    let tables = growth::tables().into_iter();
    for table in tables.filter(|table| table.name.contains(&wanted)) {
        let shapes: Vec<_> = table
            .shapes
            .iter()
            .map(|shape| measure(shape.made(), false, &mut counter))
            .collect();
        print::growth(table.name, &shapes);
    }
}
