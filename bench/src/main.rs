//! Measures the proved checker and the second implementation on the same inputs, in one run.
//! Prints a table: for each row the time of one call, in both, and the ratio.
//! `bench` measures all rows. `bench count ROW SIDE CALLS` makes so many calls of one side of a row, for a counter of instructions.

#[allow(dead_code)]
#[path = "../../tests/rust/src/bin/compare/archive.rs"]
mod archive;
mod chains;
mod examples;
mod measure;
mod rows;
mod state;
#[allow(dead_code)]
#[path = "../../tests/rust/src/bin/compare/states.rs"]
mod states;
#[allow(dead_code)]
#[path = "../../tests/rust/src/bin/compare/wire.rs"]
mod wire;
#[allow(dead_code)]
#[path = "../../tests/rust/src/bin/compare/wire_pairs.rs"]
mod wire_pairs;

use measure::{best_of_both, Calls};
use rows::{rows, Row};

/// One line of the table.
fn print_row(row: &Row) {
    let (proved, second) = best_of_both(&mut row.proved(), &mut row.second());
    println!(
        "{:<66} {:>10.3} {:>10.3} {:>8.2}",
        row.name(),
        proved,
        second,
        proved / second
    );
}

/// All rows, measured.
fn print_table() {
    println!(
        "{:<66} {:>10} {:>10} {:>8}",
        "microseconds for each call", "Rattle", "Rust", "ratio"
    );
    for row in rows() {
        print_row(&row);
    }
}

/// So many calls of one side of one row.
fn count(words: &[String]) -> Option<()> {
    let row = Row::number(words.first()?.parse().ok()?)?;
    let calls = words.get(2)?.parse().ok()?;
    let mut side: Calls = match words.get(1)?.as_str() {
        "rattle" => row.proved(),
        "rust" => row.second(),
        _ => return None,
    };
    side(calls);
    Some(())
}

fn main() {
    let words: Vec<String> = std::env::args().skip(1).collect();
    match words.split_first() {
        None => print_table(),
        Some((word, rest)) if word == "count" && count(rest).is_some() => (),
        Some((word, _)) if word == "names" => rows().for_each(|row| println!("{}", row.name())),
        _ => {
            eprintln!("usage: bench | bench names | bench count ROW rattle|rust CALLS");
            std::process::exit(2);
        }
    }
}
