//! States that break one clause of soundness, and states shaken at random.

use super::super::choices::{choice, named_choice, no_choice};
use super::super::packets::any_packet;
use super::super::random::Random;
use super::super::script::Script;
use super::states::{
    counter_before, filter_pid, hold_rightly, some_number, sound_state, wanted_pid,
};
use crate::filters_and_areas::open;
use crate::from_payload_to_sections::packet_call;
use crate::numbers_of_the_house::{
    AREAS, LEAST_LIST_PLACES, LEAST_OUTPUT_BYTES, PLACES, STORE_BYTES,
};
use crate::soundness::{self, Clause, CLAUSES};
use crate::state::{Area, Place, State};

type Break = fn(&mut Random, &mut State);

/// Each clause with what breaks it.
const BREAKS: [(Clause, Break); CLAUSES.len()] = [
    (soundness::used_areas_have_different_pids, break_pids),
    (
        soundness::used_areas_have_pids_for_filters,
        break_filter_pids,
    ),
    (soundness::user_counts_are_the_open_filters, break_users),
    (soundness::open_numbers_differ, break_numbers),
    (soundness::open_numbers_are_below_the_next, break_next_above),
    (soundness::the_next_number_is_in_range, break_next),
    (soundness::held_bytes_are_below_a_whole_area, break_held),
    (soundness::areas_without_counter_hold_nothing, break_unseen),
    (
        soundness::areas_without_counter_saw_no_repeat,
        break_unseen_repeats,
    ),
    (soundness::areas_with_counter_have_four_bits, break_counters),
    (soundness::marks_of_a_counter_are_0_or_1, break_marks),
    (soundness::marks_of_a_repeat_are_0_or_1, break_repeats),
    (soundness::open_filters_stand_on_used_areas, break_standing),
    (soundness::open_filters_chose_a_table_or_all, break_choices),
    (soundness::free_records_are_zero, break_free),
];

/// Breaks exactly one clause of a sound state, makes every call, and at times mends it again.
pub fn broken(random: &mut Random, script: &mut Script) {
    let chosen = random.pick(&BREAKS);
    let (before, state) = if random.one_in(3) {
        let before = called_state(random, script);
        let state = broken_from(random, &before, chosen).unwrap_or_else(|| before.clone());
        (before, state)
    } else {
        record_state(random, script, chosen)
    };
    script.change(&before, &state);
    every_call(random, script, &state);
    if random.one_in(3) {
        script.change(&state, &before);
        every_call(random, script, &before);
    }
}

/// The state with that clause broken and no other, if a few tries find one.
fn broken_from(random: &mut Random, before: &State, chosen: (Clause, Break)) -> Option<State> {
    let (clause, break_it) = chosen;
    for _ in 0..40 {
        let mut state = before.clone();
        break_it(random, &mut state);
        let failing = CLAUSES.iter().filter(|clause| !clause(&state)).count();
        if failing == 1 && !clause(&state) {
            return Some(state);
        }
    }
    None
}

/// A sound state set by records, and the same with the clause broken.
fn record_state(
    random: &mut Random,
    script: &mut Script,
    chosen: (Clause, Break),
) -> (State, State) {
    loop {
        let before = sound_state(random);
        if let Some(state) = broken_from(random, &before, chosen) {
            script.state(&before);
            hold_rightly(random, script, &before);
            return (before, state);
        }
    }
}

/// A sound state made by calls, which the generator follows.
fn called_state(random: &mut Random, script: &mut Script) -> State {
    let mut state = State::fresh();
    let (mut store, mut output) = (vec![0; STORE_BYTES], vec![0; LEAST_OUTPUT_BYTES]);
    let mut list = vec![0; LEAST_LIST_PLACES];
    script.set_up("fresh");
    let pids: Vec<u16> = (0..random.between(1, 5))
        .map(|_| filter_pid(random))
        .collect();
    for step in 0..random.between(3, 14) {
        let pid = random.pick(&pids);
        if step < 2 || random.one_in(3) {
            let choice = named_choice(random);
            script.open(pid, choice);
            // A refusal leaves the state as it is, here as in the script.
            let _ = open(&mut state, pid, choice);
        } else {
            let packet = any_packet(random, pid, counter_before(&state, pid));
            script.packet(&packet);
            let _ = packet_call(&mut state, &mut store, &mut output, &mut list, &packet);
        }
    }
    state
}

/// The state with held counts that fit an area, for writing the held bytes only.
fn tamed(state: &State) -> State {
    let mut tamed = state.clone();
    for area in tamed.areas.iter_mut() {
        area.held = area.held.min(4_095);
    }
    tamed
}

fn every_call(random: &mut Random, script: &mut Script, state: &State) {
    let known = wanted_pid(random, state);
    let other = filter_pid(random);
    let pid = random.pick(&[known, known, other, 0x1FFF]);
    script.open(pid, named_choice(random));
    script.call(&format!("close {}", some_number(random, state)));
    let counter = counter_before(state, known);
    let packet = any_packet(random, known, counter);
    script.packet(&packet);
    if random.one_in(4) {
        let store = random.pick(&[0, 32_767, 32_768]);
        let output = random.pick(&[0, 4_277, 4_278]);
        let list = random.pick(&[0, 60, 61]);
        script.packet_lent([store, output, list], &packet[..100]);
    }
}

fn some_area(random: &mut Random, state: &State, wanted: fn(&Area) -> bool) -> Option<usize> {
    let found: Vec<usize> = (0..AREAS)
        .filter(|index| wanted(&state.areas[*index]))
        .collect();
    (!found.is_empty()).then(|| random.pick(&found))
}

fn some_place(random: &mut Random, state: &State, open: bool) -> Option<usize> {
    let found: Vec<usize> = (0..PLACES)
        .filter(|index| state.places[*index].open() == open)
        .collect();
    (!found.is_empty()).then(|| random.pick(&found))
}

/// The PID of some used area, and a wanted area, where there are both.
fn chosen<'a>(
    random: &mut Random,
    state: &'a mut State,
    wanted: fn(&Area) -> bool,
) -> Option<(u16, &'a mut Area)> {
    let first = some_area(random, state, Area::used);
    let index = some_area(random, state, wanted)?;
    let pid = state.areas[first?].pid;
    Some((pid, &mut state.areas[index]))
}

fn break_pids(random: &mut Random, state: &mut State) {
    if let Some((pid, area)) = chosen(random, state, Area::used) {
        area.pid = pid;
    }
}

fn break_filter_pids(random: &mut Random, state: &mut State) {
    if let Some((_, area)) = chosen(random, state, Area::used) {
        area.pid = random.pick(&[0x1FFF, 0x2000, 0xFFFF]);
    }
}

fn break_users(random: &mut Random, state: &mut State) {
    if let Some((_, area)) = chosen(random, state, Area::used) {
        area.users = random.pick(&[area.users - 1, area.users + 1, 255]);
    }
}

fn break_held(random: &mut Random, state: &mut State) {
    if let Some((_, area)) = chosen(random, state, |area| area.used() && area.has_seen()) {
        area.held = random.pick(&[4_096, 4_097, 8_191, 65_535]);
    }
}

fn break_unseen(random: &mut Random, state: &mut State) {
    if let Some((_, area)) = chosen(random, state, |area| area.used() && !area.has_seen()) {
        if random.one_in(2) {
            area.held = random.pick(&[1, 3, 4_095]);
        } else {
            area.counter = random.pick(&[1, 15]);
        }
    }
}

fn break_unseen_repeats(random: &mut Random, state: &mut State) {
    if let Some((_, area)) = chosen(random, state, |area| area.used() && !area.has_seen()) {
        area.repeated = 1;
    }
}

fn break_counters(random: &mut Random, state: &mut State) {
    if let Some((_, area)) = chosen(random, state, |area| area.used() && area.has_seen()) {
        area.counter = random.pick(&[16, 17, 128, 255]);
    }
}

fn break_marks(random: &mut Random, state: &mut State) {
    if let Some((_, area)) = chosen(random, state, Area::used) {
        area.seen = random.pick(&[2, 3, 128, 255]);
    }
}

fn break_repeats(random: &mut Random, state: &mut State) {
    if let Some((_, area)) = chosen(random, state, |area| area.used() && area.has_seen()) {
        area.repeated = random.pick(&[2, 2, 3, 128, 255, 255]);
    }
}

/// Some places of a state, where there are any.
struct Chosen {
    open: Option<usize>,
    free: Option<usize>,
    other: Option<usize>,
}

fn chosen_places(random: &mut Random, state: &State) -> Chosen {
    Chosen {
        open: some_place(random, state, true),
        free: some_place(random, state, false),
        other: some_place(random, state, true),
    }
}

fn break_numbers(random: &mut Random, state: &mut State) {
    let chosen = chosen_places(random, state);
    if let (Some(open), Some(other)) = (chosen.open, chosen.other) {
        state.places[other].number = state.places[open].number;
    }
}

fn break_next_above(random: &mut Random, state: &mut State) {
    if let Some(open) = chosen_places(random, state).open {
        if random.one_in(2) {
            let numbers = state.places.iter().map(|place| place.number);
            state.next = u32::from(numbers.max().unwrap_or(1));
        } else if state.next <= 65_535 {
            let past = random.between(state.next as usize, 65_535);
            state.places[open].number = random.pick(&[state.next as u16, past as u16]);
        }
    }
}

fn break_next(random: &mut Random, state: &mut State) {
    if random.one_in(2) {
        *state = State::fresh();
        state.next = 0;
    } else {
        state.next = random.pick(&[65_537, 65_538, 131_072, u32::MAX]);
    }
}

fn break_standing(random: &mut Random, state: &mut State) {
    if let Some(free) = chosen_places(random, state).free {
        state.places[free] = Place {
            number: random.between(1, state.next as usize) as u16,
            area: random.pick(&[8, 9, 40, 255]),
            choice: choice(random).number(),
        };
    }
}

fn break_choices(random: &mut Random, state: &mut State) {
    if let Some(open) = chosen_places(random, state).open {
        state.places[open].choice = no_choice(random);
    }
}

fn break_free(random: &mut Random, state: &mut State) {
    let area = some_area(random, state, |area| !area.used());
    let place = some_place(random, state, false);
    match (random.below(8), area, place) {
        (0, Some(area), _) => state.areas[area].pid = random.pick(&[1, 0x1FFE, 0xFFFF]),
        (1, Some(area), _) => state.areas[area].seen = random.pick(&[1, 2, 255]),
        (2, Some(area), _) => {
            state.areas[area].seen = 1;
            state.areas[area].held = random.pick(&[1, 4_095]);
        }
        (3, Some(area), _) => {
            state.areas[area].seen = 1;
            state.areas[area].counter = random.pick(&[1, 15]);
        }
        (4, Some(area), _) => state.areas[area].repeated = random.pick(&[1, 1, 2, 255]),
        (5, _, Some(place)) => state.places[place].area = random.pick(&[1, 7, 8, 255]),
        (_, _, Some(place)) => {
            let past = no_choice(random);
            state.places[place].choice = random.pick(&[1, 67, 79, 255, past]);
        }
        _ => {}
    }
}

/// A sound state with one record set anew, so that it may or may not be sound.
pub fn shaken(random: &mut Random, script: &mut Script) {
    let mut state = sound_state(random);
    let index = random.below(AREAS);
    let area = &mut state.areas[index];
    match random.below(10) {
        0 => area.pid = random.pick(&[0, 0x1FFE, 0x1FFF]),
        1 => area.users = random.below(4) as u8,
        2 => area.held = random.pick(&[0, 1, 4_095, 4_096]),
        3 => area.seen = random.pick(&[0, 1, 2, 255]),
        4 => area.counter = random.pick(&[0, 15, 16]),
        5 => area.repeated = random.pick(&[0, 1, 2, 255]),
        6 => *area = Area::default(),
        7 => state.next = random.pick(&[0, 1, 2, 33, 65_535, 65_536, 65_537]),
        _ => {
            state.places[random.below(PLACES)] = Place {
                number: random.pick(&[0, 1, 2, 40, 65_535]),
                area: random.below(9) as u8,
                choice: random.pick(&[0, 0, 1, 79, 255, 256, 257]),
            };
        }
    }
    script.state(&state);
    hold_rightly(random, script, &tamed(&state));
    every_call(random, script, &state);
}
