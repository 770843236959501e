//! The tables as they are printed.

use crate::instructions::Counts;
use crate::lengths::LENGTHS;
use crate::tables::{Kind, Table};
use crate::time::Times;

/// The figures of a case.
pub struct Measured {
    pub name: String,
    pub bytes: usize,
    /// What the figures are divided by.
    pub per: usize,
    pub times: Times,
    pub counts: Option<Counts>,
}

impl Measured {
    fn megabytes_a_second(&self, nanoseconds: f64) -> f64 {
        self.bytes as f64 * 1000.0 / nanoseconds
    }
}

/// A figure of each reader, and their ratio.
fn cells(proved: f64, plain: f64, digits: usize) -> String {
    format!(
        "{proved:.digits$} | {plain:.digits$} | {:.2}",
        proved / plain
    )
}

/// The head of a table, by its columns.
fn head(columns: &str) {
    println!("\n| {columns} |");
    println!("{}|", "|---".repeat(columns.split('|').count()));
}

pub fn table(table: &Table, rows: &[Measured]) {
    println!("\n### {}", table.name);
    let times = format!("{} | {} | plain | ratio", table.of, table.unit);
    if rows.iter().any(|row| row.counts.is_some()) {
        head(&format!("{times} | instructions | plain | ratio"));
    } else {
        head(&times);
    }
    for row in rows {
        let per = row.per as f64;
        let times = cells(row.times.proved / per, row.times.plain / per, 1);
        let counts = match &row.counts {
            Some(c) => format!(
                " {} |",
                cells(c.proved as f64 / per, c.plain as f64 / per, 0)
            ),
            None => String::new(),
        };
        println!("| {} | {times} |{counts}", row.name);
    }
    match table.kind {
        Kind::Checks => throughput(rows),
        Kind::Rising | Kind::Hostile => rising(rows),
        Kind::Questions => {}
    }
}

/// How a check grows over the rows of a table, against the first.
fn rising(rows: &[Measured]) {
    for row in rows {
        println!(
            "\n{}: {:.1} us, {:.1} times the first.",
            row.name,
            row.times.proved / 1000.0,
            row.times.proved / rows[0].times.proved
        );
    }
}

/// Throughput of the checks, which the ratios do not show.
fn throughput(rows: &[Measured]) {
    head("document | bytes | MB/s | plain | times plain");
    for row in rows {
        let [proved, plain] =
            [row.times.proved, row.times.plain].map(|time| row.megabytes_a_second(time));
        println!(
            "| {} | {} | {} |",
            row.name,
            row.bytes,
            cells(proved, plain, 0)
        );
    }
}

/// The figures of one shape, a byte, at the three lengths.
struct Grown<'a> {
    name: &'a str,
    proved: [f64; 3],
    plain: [f64; 3],
}

/// What is told of a case, of the proved reader and of the plain one.
type Figures = fn(&Measured) -> Option<(f64, f64)>;

fn times(of: &Measured) -> Option<(f64, f64)> {
    Some((of.times.proved, of.times.plain))
}

fn counts(of: &Measured) -> Option<(f64, f64)> {
    let counts = of.counts.as_ref()?;
    Some((counts.proved as f64, counts.plain as f64))
}

fn grown(lengths: &[Measured; 3], figures: Figures) -> Option<Grown<'_>> {
    let mut grown = Grown {
        name: &lengths[0].name,
        proved: [0.0; 3],
        plain: [0.0; 3],
    };
    for (i, of) in lengths.iter().enumerate() {
        let (proved, plain) = figures(of)?;
        grown.proved[i] = proved / of.per as f64;
        grown.plain[i] = plain / of.per as f64;
    }
    Some(grown)
}

/// How the checks grow with the length: a table of times, and one of instructions where they are counted.
pub fn growth(name: &str, shapes: &[[Measured; 3]]) {
    for (unit, figures) in [
        ("ns a byte", times as Figures),
        ("instructions a byte", counts),
    ] {
        let rows: Vec<_> = shapes.iter().filter_map(|s| grown(s, figures)).collect();
        if !rows.is_empty() {
            println!("\n### {name}: {unit}");
            growth_table(&rows);
        }
    }
}

fn growth_table(rows: &[Grown]) {
    let [short, middle, long] = LENGTHS.map(|(_, name)| name);
    let lengths = format!("{short} | {middle} | {long} | growth to {middle} | to {long}");
    head(&format!("shape | {lengths} | plain, {lengths} | ratio"));
    for row in rows {
        println!(
            "| {} | {} | {} | {:.2} |",
            row.name,
            growing_cells(row.proved),
            growing_cells(row.plain),
            row.proved[2] / row.plain[2]
        );
    }
}

/// The figures at the three lengths, and how they grow against the first: 1.00 where the whole grows as the length does.
fn growing_cells(figures: [f64; 3]) -> String {
    let [short, middle, long] = figures.map(|x| {
        let digits = (2.0 - x.log10().floor()).clamp(0.0, 5.0) as usize;
        format!("{x:.digits$}")
    });
    let [_, to_middle, to_long] = figures.map(|x| x / figures[0]);
    format!("{short} | {middle} | {long} | {to_middle:.2} | {to_long:.2}")
}
