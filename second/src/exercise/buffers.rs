//! The buffers and the list that are lent to packet calls, and the row of records that is lent for a verdict.

use super::outcome::digest;
use crate::transport_buffer::Record;

const STORE_BUFFER: usize = 40_960;
const OUTPUT_BUFFER: usize = 8_192;
const LIST_PLACES: usize = 128;

/// For how many records the row has room.
pub const ROW_RECORDS: usize = 2_048;

pub struct Buffers {
    pub store: Vec<u8>,
    pub output: Vec<u8>,
    pub list: Vec<u32>,
    pub row: Vec<Record>,
}

impl Buffers {
    pub fn new() -> Buffers {
        Buffers {
            store: vec![0; STORE_BUFFER],
            output: vec![0; OUTPUT_BUFFER],
            list: vec![0; LIST_PLACES],
            row: Vec::new(),
        }
    }
}

/// Writes bytes from a place on, where they end in the buffer.
pub fn write(buffer: &mut [u8], at: u64, bytes: &[u8]) -> Option<String> {
    let at = at as usize;
    let part = buffer.get_mut(at..at + bytes.len())?;
    part.copy_from_slice(bytes);
    Some(String::new())
}

/// What changed between two pictures of one buffer.
pub fn changed(before: &[u8], after: &[u8]) -> String {
    told_range(before, after, |bytes| digest(bytes).to_string())
}

/// What changed between two pictures of the list, every set from the first to the last change.
pub fn changed_sets(before: &[u32], after: &[u32]) -> String {
    told_range(before, after, |sets| {
        let sets: Vec<String> = sets.iter().map(u32::to_string).collect();
        sets.join(" ")
    })
}

/// The first and the last place that differ, with what is told of all from the one to the other.
fn told_range<T: PartialEq>(before: &[T], after: &[T], tell: impl Fn(&[T]) -> String) -> String {
    let differs = |at: &usize| before[*at] != after[*at];
    let places = 0..before.len().min(after.len());
    match (places.clone().find(differs), places.rev().find(differs)) {
        (Some(first), Some(last)) => {
            format!("{} {} {}", first, last, tell(&after[first..=last]))
        }
        _ => String::from("-"),
    }
}
