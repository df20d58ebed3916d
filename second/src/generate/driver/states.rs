//! Sound states set record by record, with held bytes that contradict nothing.

use super::super::choices::{choice, named_choice};
use super::super::packets::any_packet;
use super::super::random::Random;
use super::super::script::Script;
use super::super::sections::section_head;
use crate::numbers_of_the_house::{AREAS, AREA_BYTES, LAST_NUMBER, PLACES};
use crate::state::{Area, Place, State};

pub fn filter_pid(random: &mut Random) -> u16 {
    match random.below(3) {
        0 => random.pick(&[0, 1, 0x10, 0x11, 0x12, 0x1FFD, 0x1FFE]),
        _ => random.below(0x1FFF) as u16,
    }
}

/// The values in some order.
pub fn shuffled(random: &mut Random, count: usize) -> Vec<usize> {
    let mut values: Vec<usize> = (0..count).collect();
    for at in (1..count).rev() {
        values.swap(at, random.below(at + 1));
    }
    values
}

pub fn sound_state(random: &mut Random) -> State {
    let mut state = State::fresh();
    let used = random.below(AREAS + 1);
    let filters = match used {
        0 => 0,
        _ if random.one_in(10) => PLACES,
        _ if random.one_in(10) => random.between(used, PLACES),
        _ => used + random.below(4),
    };
    let spare = match random.below(4) {
        0 => LAST_NUMBER as usize - filters,
        1 => 0,
        2 => random.below(300),
        _ => random.below(LAST_NUMBER as usize - filters),
    };
    state.next = (filters + spare + 1) as u32;
    let areas = shuffled(random, AREAS);
    for area in &areas[..used] {
        state.areas[*area] = used_area(random, &state);
    }
    let places = shuffled(random, PLACES);
    for (rank, place) in places[..filters].iter().enumerate() {
        let area = areas[if rank < used {
            rank
        } else {
            random.below(used)
        }];
        let number = free_number(random, &state);
        state.areas[area].users += 1;
        state.places[*place] = Place {
            number,
            area: area as u8,
            choice: choice(random).number(),
        };
    }
    for area in state.areas.iter_mut() {
        area.users = area.users.saturating_sub(1);
    }
    state
}

/// A sound state with filters on one PID, whose area has seen the counter and perhaps its repeat.
pub fn one_pid(random: &mut Random, pid: u16, held: usize, counter: u8) -> (State, usize) {
    let mut state = State::fresh();
    let index = random.below(AREAS);
    let filters = random.pick(&[1, 1, 2, 3, 5]);
    for number in 1..=filters {
        let place = (random.below(5) + 6 * number) % PLACES;
        state.places[place] = Place {
            number: number as u16,
            area: index as u8,
            choice: choice(random).number(),
        };
    }
    state.next = filters as u32 + 1;
    state.areas[index] = Area {
        pid,
        users: filters as u8,
        held: held as u16,
        seen: 1,
        counter,
        repeated: random.below(2) as u8,
    };
    (state, index)
}

/// A record with a PID of its own, and one user too many as a mark that it is used.
fn used_area(random: &mut Random, state: &State) -> Area {
    let mut pid = filter_pid(random);
    while state.area_of(pid).is_some() {
        pid = filter_pid(random);
    }
    let seen = !random.one_in(4);
    Area {
        pid,
        users: 1,
        held: if seen { held_count(random) as u16 } else { 0 },
        seen: u8::from(seen),
        counter: if seen { random.below(16) as u8 } else { 0 },
        repeated: if seen { random.below(2) as u8 } else { 0 },
    }
}

pub fn held_count(random: &mut Random) -> usize {
    match random.below(6) {
        0 => random.pick(&[4_095, 4_094, 4_093, 4_092]),
        1 => random.below(4_096),
        2 => random.between(3, 200),
        3 => 0,
        _ => random.pick(&[1, 2, 3, 4]),
    }
}

fn free_number(random: &mut Random, state: &State) -> u16 {
    loop {
        let number = random.between(1, state.next as usize - 1) as u16;
        if state.places.iter().all(|place| place.number != number) {
            return number;
        }
    }
}

/// Writes the first bytes of each held section so that none contradicts its record.
pub fn hold_rightly(random: &mut Random, script: &mut Script, state: &State) {
    for (index, area) in state.areas.iter().enumerate() {
        if area.held > 0 {
            let least = (area.held as usize).saturating_sub(2);
            let length = match random.below(3) {
                0 => least,
                1 => least + random.below(4_094 - least).min(190),
                _ => random.between(least, 4_093),
            };
            let head = section_head(random, length);
            script.store(index * AREA_BYTES, &head);
        }
    }
}

/// The PID of some used area, or any PID where none is used.
pub fn wanted_pid(random: &mut Random, state: &State) -> u16 {
    let used: Vec<u16> = state
        .areas
        .iter()
        .filter(|area| area.used())
        .map(|area| area.pid)
        .collect();
    if used.is_empty() {
        filter_pid(random)
    } else {
        random.pick(&used)
    }
}

/// Mostly a number that is open, where there is one.
pub fn some_number(random: &mut Random, state: &State) -> u16 {
    let open: Vec<u16> = state
        .places
        .iter()
        .filter(|place| place.open())
        .map(|place| place.number)
        .collect();
    match random.below(6) {
        0 => random.pick(&[0, 1, 65_535, state.next as u16]),
        1 => random.next() as u16,
        _ if open.is_empty() => random.below(3) as u16,
        _ => random.pick(&open),
    }
}

/// The area and counter that a packet of the PID meets.
pub fn counter_before(state: &State, pid: u16) -> u8 {
    state
        .area_of(pid)
        .map_or(0, |area| state.areas[area].counter % 16)
}

/// A sound state set by records, then a few calls.
pub fn set_state(random: &mut Random, script: &mut Script) {
    let state = sound_state(random);
    script.state(&state);
    hold_rightly(random, script, &state);
    for _ in 0..random.between(3, 8) {
        match random.below(4) {
            0 => {
                let known = wanted_pid(random, &state);
                let other = filter_pid(random);
                let pid = random.pick(&[known, other, 0x1FFF, 0x1FFE]);
                script.open(pid, named_choice(random));
            }
            1 => script.call(&format!("close {}", some_number(random, &state))),
            _ => {
                let pid = wanted_pid(random, &state);
                let counter = counter_before(&state, pid);
                let packet = any_packet(random, pid, counter);
                script.packet(&packet);
            }
        }
    }
}
