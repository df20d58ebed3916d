//! The lines about a transport buffer: the row of records and the verdict on it.

use super::buffers::ROW_RECORDS;
use super::line::Call;
use super::outcome::told;
use crate::transport_buffer::{judge, Record, Verdict};

/// The outcome behind the word, or nothing where the word is none of these or the records do not fit.
pub fn answer(row: &mut Vec<Record>, call: &Call) -> Option<String> {
    let numbers = &call.numbers;
    match call.word {
        "clear" => {
            row.clear();
            Some(String::new())
        }
        "arrive" => {
            row.extend(arrivals(numbers, ROW_RECORDS - row.len())?);
            Some(row.len().to_string())
        }
        "judge" => Some(told(judge(row, numbers[0] as u16), verdict)),
        _ => None,
    }
}

/// The records of a line, or nothing where there is no room for all of them or a tick is too high.
fn arrivals(numbers: &[u64], room: usize) -> Option<Vec<Record>> {
    let [first, step, count] = [0, 1, 2].map(|place| u128::from(numbers[place]));
    if count > room as u128 {
        return None;
    }
    let record = |place: u128| {
        let tick = u64::try_from(first + place * step).ok()?;
        let pid = numbers[3] as u16;
        Some(Record { tick, pid })
    };
    (0..count).map(record).collect()
}

fn verdict(verdict: Verdict) -> String {
    match verdict {
        Verdict::Passes => String::from("passes"),
        Verdict::Overruns(index) => format!("overruns {}", index),
        Verdict::Lingers(index) => format!("lingers {}", index),
    }
}
