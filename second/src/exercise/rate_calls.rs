//! The lines about rates, in which a double is told by its bits, as a number.

use super::outcome::told;
use crate::rates::{rate, Rates};

/// A rate from the bytes, the later and the earlier reference, without a record.
pub fn first(numbers: &[u64]) -> String {
    rated(None, numbers)
}

/// A rate with the record that stands before them.
pub fn again(numbers: &[u64]) -> String {
    let known = Rates {
        lowest: numbers[0],
        latest: numbers[1],
        highest: numbers[2],
    };
    rated(Some(known), &numbers[3..])
}

fn rated(known: Option<Rates>, numbers: &[u64]) -> String {
    let result = rate(known, numbers[0], numbers[1], numbers[2]);
    told(result, |rates| {
        format!("{} {} {}", rates.lowest, rates.latest, rates.highest)
    })
}
