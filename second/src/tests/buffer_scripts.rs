//! What the made script of rows asks for.

mod situations;

use crate::exercise;
use crate::generate;
use crate::transport_buffer::Record;
use situations::{look, Asked, Found};

/// The lines of the gate's script, each with its outcome.
fn answered() -> Vec<(String, String)> {
    let (mut script, mut output) = (Vec::new(), Vec::new());
    generate::run("buffer", 1, 20_000, &mut script).unwrap();
    exercise::run(&mut &*script, &mut output).unwrap();
    let [script, output] = [script, output].map(|text| String::from_utf8(text).unwrap());
    let outcomes = output.lines().map(String::from);
    script.lines().map(String::from).zip(outcomes).collect()
}

/// The numbers behind a line's word.
fn numbers(line: &str) -> Vec<u64> {
    let fields = line.split(' ').skip(1);
    fields.map(|field| field.parse().unwrap()).collect()
}

/// The records that a line brings.
fn arrivals(line: &str) -> Vec<Record> {
    let numbers = numbers(line);
    let [first, step, count] = [numbers[0], numbers[1], numbers[2]];
    let pid = numbers[3] as u16;
    let record = |place: u64| Record {
        tick: first + place * step,
        pid,
    };
    (0..count).map(record).collect()
}

/// What is found in the script.
fn situations() -> Found {
    let mut found = Found::default();
    let mut row = Vec::new();
    let mut before: Option<(u16, String, usize)> = None;
    for (line, outcome) in answered() {
        match line.split(' ').next() {
            Some("clear") => {
                row.clear();
                before = None;
            }
            Some("arrive") => {
                let new = arrivals(&line);
                let far = numbers(&line)[0].checked_add(numbers(&line)[1]);
                found.note("nothing arrives", new.is_empty());
                found.note(
                    "one arrives, with a far step",
                    new.len() == 1 && far.is_none(),
                );
                row.extend(new);
            }
            Some("judge") => {
                let pid = numbers(&line)[0] as u16;
                look(&Asked::of(&row, pid, &outcome), &mut found);
                if let Some((last, told, size)) = &before {
                    found.note("another PID", *last != pid && *size == row.len());
                    found.note("a grown row", *last == pid && *size < row.len());
                    found.note("told otherwise", *last == pid && *told != outcome);
                }
                before = Some((pid, outcome, row.len()));
            }
            _ => found.note("fresh", !row.is_empty()),
        }
    }
    found
}

#[test]
fn every_situation() {
    let found = situations().of;
    // So many names can be noted, and each of them was.
    assert_eq!(found.len(), 60, "{:?}", found);
    assert!(found.values().min() > Some(&20), "{:?}", found);
}
