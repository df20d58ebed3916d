//! The records of a state, printed and set.

use crate::state::{Area, Place, State};

/// The state, told by the records that are not all zero.
pub fn records(state: &State) -> String {
    let mut parts = vec![format!("next {}", state.next)];
    for (index, area) in state.areas.iter().enumerate() {
        if *area != Area::default() {
            parts.push(area_record(index, area));
        }
    }
    for (index, place) in state.places.iter().enumerate() {
        if *place != Place::default() {
            parts.push(place_record(index, place));
        }
    }
    parts.join(" ")
}

fn area_record(index: usize, area: &Area) -> String {
    format!(
        "area {} {} {} {} {} {} {}",
        index, area.pid, area.users, area.held, area.seen, area.counter, area.repeated
    )
}

fn place_record(index: usize, place: &Place) -> String {
    let table = table_of(place.choice);
    format!("place {} {} {} {}", index, place.number, place.area, table)
}

/// A record's choice as scripts write it: a table_id, 256 for all, or a number that is no choice.
pub fn table_of(choice: u16) -> u16 {
    match choice {
        0 => 256,
        1..=256 => choice - 1,
        _ => choice,
    }
}

/// The number of a record's choice that a script writes so.
fn choice_of(table: u16) -> u16 {
    match table {
        256 => 0,
        0..=255 => table + 1,
        _ => table,
    }
}

pub fn set_area(state: &mut State, numbers: &[u64]) {
    state.areas[numbers[0] as usize] = Area {
        pid: numbers[1] as u16,
        users: numbers[2] as u8,
        held: numbers[3] as u16,
        seen: numbers[4] as u8,
        counter: numbers[5] as u8,
        repeated: numbers[6] as u8,
    };
}

pub fn set_place(state: &mut State, numbers: &[u64]) {
    state.places[numbers[0] as usize] = Place {
        number: numbers[1] as u16,
        area: numbers[2] as u8,
        choice: choice_of(numbers[3] as u16),
    };
}
