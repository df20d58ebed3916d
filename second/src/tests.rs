//! The documents' examples, and what the commands promise.

mod begun;
mod buffer;
mod buffer_counts;
mod buffer_lines;
mod buffer_rows;
mod buffer_scripts;
mod choices;
mod commands;
mod counts;
mod driver;
mod extension;
mod filters;
mod gathering;
mod generators;
mod lines;
mod losses;
mod rate_records;
mod rate_scripts;
mod rates;
mod recordings;
mod repeats;
mod sound;
mod sums;
mod table_examples;
mod time_examples;

use crate::exercise::Exercise;

/// A packet from its first bytes on, filled up with one byte.
fn packet(first: &[u8], rest: u8) -> Vec<u8> {
    let mut packet = first.to_vec();
    packet.resize(188, rest);
    packet
}

/// The outcomes of some lines in one run.
fn outcomes(lines: &[&str]) -> Vec<String> {
    let mut exercise = Exercise::new();
    lines
        .iter()
        .map(|line| exercise.answer(line.as_bytes()))
        .collect()
}

fn outcome(line: &str) -> String {
    Exercise::new().answer(line.as_bytes())
}
