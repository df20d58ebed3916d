//! Document 01, "From payload to sections", with requests 2, 3 and 10 of document 02: the packet call on whole buffers.

use crate::bytes::number_in;
use crate::numbers_of_the_house::{
    AREA_BYTES, LEAST_LIST_PLACES, LEAST_OUTPUT_BYTES, LONGEST_SECTION_LENGTH, STORE_BYTES,
};
use crate::refusal_numbers::{demand, Refusal};
use crate::soundness::sound;
use crate::state::{Area, State};
use crate::the_packet::{read_packet, Reading};

#[derive(Clone, Copy, Debug, Default, PartialEq, Eq)]
pub struct Wanted {
    pub sections: usize,
    pub bytes: usize,
    pub jump: bool,
    pub repeat: bool,
    pub given_up: u32,
    pub begun: usize,
}

#[derive(Clone, Copy, Debug, PartialEq, Eq)]
pub enum Answer {
    Unwanted,
    Wanted(Wanted),
}

/// What the bytes from a section's first one on turn out to be.
enum Start {
    Whole(usize),
    Unfinished,
    TooLong,
}

#[derive(Default)]
struct Gathered {
    sections: Vec<Vec<u8>>,
    held: Vec<u8>,
    given_up: u32,
    begun: usize,
}

pub fn packet_call(
    state: &mut State,
    store: &mut [u8],
    output: &mut [u8],
    list: &mut [u32],
    packet: &[u8],
) -> Result<Answer, Refusal> {
    demand(sound(state), 1)?;
    demand(store.len() == STORE_BYTES, 3)?;
    demand(output.len() >= LEAST_OUTPUT_BYTES, 3)?;
    demand(list.len() >= LEAST_LIST_PLACES, 3)?;
    let reading = read_packet(packet)?;
    let area = match state.area_of(reading.pid) {
        Some(area) => area,
        None => return Ok(Answer::Unwanted),
    };
    let first = area * AREA_BYTES;
    let held = store[first..first + state.areas[area].held as usize].to_vec();
    demand(!contradicts(&held), 9)?;
    demand(reading.scrambling == 0, 10)?;
    let payload = &packet[reading.payload.start..];
    demand(!pointer_leaves_nothing(&reading, payload), 11)?;
    let mut answer = Wanted::default();
    if !payload.is_empty() {
        let gathered = take_payload(state, area, &reading, held, payload, &mut answer);
        store[first..first + gathered.held.len()].copy_from_slice(&gathered.held);
        let joined = gathered.sections.concat();
        output[..joined.len()].copy_from_slice(&joined);
        write_sets(state, area, &gathered.sections, list);
        answer.sections = gathered.sections.len();
        answer.bytes = joined.len();
        answer.given_up = gathered.given_up;
        answer.begun = gathered.begun;
    }
    Ok(Answer::Wanted(answer))
}

/// Each section's set, that of the filters which let its table_id through.
fn write_sets(state: &State, area: usize, sections: &[Vec<u8>], list: &mut [u32]) {
    for (set, section) in list.iter_mut().zip(sections) {
        *set = state.set_on(area, section[0]);
    }
}

fn contradicts(held: &[u8]) -> bool {
    held.first() == Some(&0xFF) || !(held.is_empty() || matches!(start_of(held), Start::Unfinished))
}

fn pointer_leaves_nothing(reading: &Reading, payload: &[u8]) -> bool {
    let pointer = payload.first().map(|byte| usize::from(*byte));
    reading.unit_start && pointer.map_or(false, |pointer| pointer + 1 >= payload.len())
}

/// The marks of a payload, which its counter and the area's record decide, never its bytes.
fn jump_and_repeat(record: &Area, counter: u8) -> (bool, bool) {
    match (16 + counter - record.counter) % 16 {
        _ if !record.has_seen() => (false, false),
        0 if !record.has_repeated() => (false, true),
        1 => (false, false),
        _ => (true, false),
    }
}

/// Marks repeat and jump, sets the area's record and gathers what is not dropped.
fn take_payload(
    state: &mut State,
    area: usize,
    reading: &Reading,
    mut held: Vec<u8>,
    payload: &[u8],
    answer: &mut Wanted,
) -> Gathered {
    let record = &mut state.areas[area];
    let (jump, repeat) = jump_and_repeat(record, reading.counter);
    answer.jump = jump;
    answer.repeat = repeat;
    let mut gathered = Gathered::default();
    if repeat {
        record.repeated = 1;
        gathered.held = held;
        return gathered;
    }
    if jump && !held.is_empty() {
        gathered.given_up += 1;
        held.clear();
    }
    if reading.unit_start {
        let (old, new) = payload[1..].split_at(usize::from(payload[0]));
        end_section(&mut gathered, held, old);
        start_sections(&mut gathered, new);
    } else {
        continue_section(&mut gathered, held, payload);
    }
    record.seen = 1;
    record.counter = reading.counter;
    record.repeated = 0;
    record.held = gathered.held.len() as u16;
    gathered
}

fn start_of(bytes: &[u8]) -> Start {
    if bytes.len() < 3 {
        return Start::Unfinished;
    }
    let length = number_in(bytes, 1, 2) as usize % 4_096;
    if length > LONGEST_SECTION_LENGTH {
        Start::TooLong
    } else if bytes.len() >= 3 + length {
        Start::Whole(3 + length)
    } else {
        Start::Unfinished
    }
}

/// Unit start 0: the bytes belong to the held section or to none.
fn continue_section(gathered: &mut Gathered, held: Vec<u8>, payload: &[u8]) {
    if held.is_empty() {
        return;
    }
    let all = [held.as_slice(), payload].concat();
    match start_of(&all) {
        Start::Whole(size) => gathered.sections.push(all[..size].to_vec()),
        Start::Unfinished => gathered.held = all,
        Start::TooLong => gathered.given_up += 1,
    }
}

/// The bytes before the pointed place: the held section ends in them or is given up.
fn end_section(gathered: &mut Gathered, held: Vec<u8>, old: &[u8]) {
    if held.is_empty() {
        return;
    }
    let all = [held.as_slice(), old].concat();
    match start_of(&all) {
        Start::Whole(size) => gathered.sections.push(all[..size].to_vec()),
        _ => gathered.given_up += 1,
    }
}

/// The bytes from the pointed place on: section follows section, and each byte that is taken as a table_id counts.
fn start_sections(gathered: &mut Gathered, new: &[u8]) {
    let mut at = 0;
    while at < new.len() && new[at] != 0xFF {
        gathered.begun += 1;
        let rest = &new[at..];
        match start_of(rest) {
            Start::Whole(size) => {
                gathered.sections.push(rest[..size].to_vec());
                at += size;
            }
            Start::Unfinished => {
                gathered.held = rest.to_vec();
                return;
            }
            Start::TooLong => {
                gathered.given_up += 1;
                return;
            }
        }
    }
}
