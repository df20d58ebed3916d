//! Document 01, "Filters and areas", with requests 2 and 3 of document 02: the clauses of "Sound means", one function each.

use crate::numbers_of_the_house::{AREAS, AREA_BYTES, LAST_CHOICE, LAST_FILTER_PID, LAST_NUMBER};
use crate::state::{Area, Place, State};

pub type Clause = fn(&State) -> bool;

pub const CLAUSES: [Clause; 15] = [
    used_areas_have_different_pids,
    used_areas_have_pids_for_filters,
    user_counts_are_the_open_filters,
    open_numbers_differ,
    open_numbers_are_below_the_next,
    the_next_number_is_in_range,
    held_bytes_are_below_a_whole_area,
    areas_without_counter_hold_nothing,
    areas_without_counter_saw_no_repeat,
    areas_with_counter_have_four_bits,
    marks_of_a_counter_are_0_or_1,
    marks_of_a_repeat_are_0_or_1,
    open_filters_stand_on_used_areas,
    open_filters_chose_a_table_or_all,
    free_records_are_zero,
];

pub fn sound(state: &State) -> bool {
    CLAUSES.iter().all(|clause| clause(state))
}

fn used(state: &State) -> impl Iterator<Item = &Area> {
    state.areas.iter().filter(|area| area.used())
}

fn open(state: &State) -> impl Iterator<Item = &Place> {
    state.places.iter().filter(|place| place.open())
}

/// Whether no value stands twice, told by the sorted list.
fn all_differ(mut values: Vec<u16>) -> bool {
    values.sort_unstable();
    values.windows(2).all(|pair| pair[0] != pair[1])
}

pub fn used_areas_have_different_pids(state: &State) -> bool {
    all_differ(used(state).map(|area| area.pid).collect())
}

pub fn used_areas_have_pids_for_filters(state: &State) -> bool {
    used(state).all(|area| area.pid <= LAST_FILTER_PID)
}

pub fn user_counts_are_the_open_filters(state: &State) -> bool {
    let mut counts = [0; 256];
    for place in open(state) {
        counts[usize::from(place.area)] += 1;
    }
    let mut areas = state.areas.iter().zip(counts);
    areas.all(|(area, count)| u32::from(area.users) == count)
}

pub fn open_numbers_differ(state: &State) -> bool {
    all_differ(open(state).map(|place| place.number).collect())
}

pub fn open_numbers_are_below_the_next(state: &State) -> bool {
    open(state).all(|place| u32::from(place.number) < state.next)
}

pub fn the_next_number_is_in_range(state: &State) -> bool {
    (1..=LAST_NUMBER + 1).contains(&state.next)
}

pub fn held_bytes_are_below_a_whole_area(state: &State) -> bool {
    state
        .areas
        .iter()
        .all(|area| usize::from(area.held) < AREA_BYTES)
}

pub fn areas_without_counter_hold_nothing(state: &State) -> bool {
    let mut unseen = state.areas.iter().filter(|area| !area.has_seen());
    unseen.all(|area| area.held == 0 && area.counter == 0)
}

pub fn areas_without_counter_saw_no_repeat(state: &State) -> bool {
    used(state).all(|area| area.has_seen() || !area.has_repeated())
}

pub fn areas_with_counter_have_four_bits(state: &State) -> bool {
    used(state).all(|area| !area.has_seen() || area.counter <= 15)
}

pub fn marks_of_a_counter_are_0_or_1(state: &State) -> bool {
    used(state).all(|area| area.seen <= 1)
}

pub fn marks_of_a_repeat_are_0_or_1(state: &State) -> bool {
    used(state).all(|area| area.repeated <= 1)
}

pub fn open_filters_stand_on_used_areas(state: &State) -> bool {
    open(state).all(|place| {
        let area = usize::from(place.area);
        area < AREAS && state.areas[area].used()
    })
}

pub fn open_filters_chose_a_table_or_all(state: &State) -> bool {
    open(state).all(|place| place.choice <= LAST_CHOICE)
}

pub fn free_records_are_zero(state: &State) -> bool {
    let zero = |area: &Area| area.used() || *area == Area::default();
    let empty = |place: &Place| place.open() || *place == Place::default();
    state.areas.iter().all(zero) && state.places.iter().all(empty)
}
