//! One test for each clause of soundness.

use crate::filters_and_areas::{close, open};
use crate::from_payload_to_sections::packet_call;
use crate::refusal_numbers::Refusal;
use crate::soundness::{self, sound, Clause, CLAUSES};
use crate::state::{Area, Choice, Place, State};

/// Two PIDs, three filters, and on the second PID bytes held and a repeat seen.
fn right() -> State {
    let mut state = State::fresh();
    for (pid, table) in [(0x10, 0), (0x11, 78), (0x10, 254)] {
        assert!(open(&mut state, pid, Choice::One(table)).is_ok());
    }
    state.areas[1].seen = 1;
    state.areas[1].counter = 15;
    state.areas[1].held = 4_095;
    state.areas[1].repeated = 1;
    assert!(sound(&state));
    state
}

/// The state breaks that clause and no other, and every call of a state is refused 1.
fn breaks(state: State, clause: Clause) {
    assert!(!clause(&state));
    let broken = CLAUSES.iter().filter(|clause| !clause(&state)).count();
    assert_eq!(broken, 1);
    let mut after = state.clone();
    assert_eq!(open(&mut after, 0xFFFF, Choice::One(255)), Err(Refusal(1)));
    assert_eq!(close(&mut after, 0), Err(Refusal(1)));
    let refused = packet_call(&mut after, &mut [], &mut [], &mut [], &[]);
    assert_eq!(refused, Err(Refusal(1)));
    assert_eq!(after, state);
}

#[test]
fn different_pids() {
    let mut state = right();
    state.areas[1].pid = 0x10;
    breaks(state, soundness::used_areas_have_different_pids);
}

#[test]
fn pids_for_filters() {
    let mut state = right();
    state.areas[1].pid = 0x1FFE;
    assert!(sound(&state));
    for pid in [0x1FFF, 0x2000, 0xFFFF] {
        state.areas[1].pid = pid;
        breaks(state.clone(), soundness::used_areas_have_pids_for_filters);
    }
}

#[test]
fn user_counts() {
    for users in [1, 3, 255] {
        let mut state = right();
        state.areas[0].users = users;
        breaks(state, soundness::user_counts_are_the_open_filters);
    }
}

#[test]
fn different_numbers() {
    let mut state = right();
    state.places[2].number = 1;
    breaks(state, soundness::open_numbers_differ);
}

#[test]
fn numbers_below_the_next() {
    let mut state = right();
    state.next = 3;
    breaks(state, soundness::open_numbers_are_below_the_next);
    let mut state = right();
    state.places[0].number = 4;
    breaks(state, soundness::open_numbers_are_below_the_next);
}

#[test]
fn the_next_number() {
    let mut state = right();
    state.next = 65_536;
    assert!(sound(&state));
    state.next = 65_537;
    breaks(state, soundness::the_next_number_is_in_range);
    let mut state = State::fresh();
    state.next = 0;
    breaks(state, soundness::the_next_number_is_in_range);
}

#[test]
fn held_bytes() {
    for held in [4_096, 8_191, 65_535] {
        let mut state = right();
        state.areas[1].held = held;
        breaks(state, soundness::held_bytes_are_below_a_whole_area);
    }
}

#[test]
fn areas_without_counter() {
    let mut state = right();
    state.areas[0].held = 1;
    breaks(state, soundness::areas_without_counter_hold_nothing);
    let mut state = right();
    state.areas[0].counter = 1;
    breaks(state, soundness::areas_without_counter_hold_nothing);
}

#[test]
fn areas_without_counter_but_a_repeat() {
    let mut state = right();
    state.areas[0].repeated = 1;
    breaks(state, soundness::areas_without_counter_saw_no_repeat);
    for repeated in [2, 255] {
        let mut state = right();
        state.areas[0].repeated = repeated;
        assert!(!sound(&state));
    }
}

#[test]
fn areas_with_counter() {
    let mut state = right();
    state.areas[1].counter = 16;
    breaks(state, soundness::areas_with_counter_have_four_bits);
}

#[test]
fn marks_of_a_counter() {
    for seen in [2, 3, 255] {
        let mut state = right();
        state.areas[1].seen = seen;
        breaks(state, soundness::marks_of_a_counter_are_0_or_1);
    }
}

#[test]
fn marks_of_a_repeat() {
    for held in [0, 1, 4_095] {
        let mut state = right();
        state.areas[1].held = held;
        for repeated in [0, 1] {
            state.areas[1].repeated = repeated;
            assert!(sound(&state));
        }
        for repeated in [2, 3, 255] {
            state.areas[1].repeated = repeated;
            breaks(state.clone(), soundness::marks_of_a_repeat_are_0_or_1);
        }
    }
}

#[test]
fn filters_on_used_areas() {
    let mut state = right();
    state.next = 5;
    for area in [8, 255] {
        state.places[9] = Place {
            number: 4,
            area,
            choice: 0,
        };
        breaks(state.clone(), soundness::open_filters_stand_on_used_areas);
    }
    state.places[9].area = 5;
    assert!(!soundness::open_filters_stand_on_used_areas(&state));
}

#[test]
fn choices_of_open_filters() {
    let mut state = right();
    for choice in [0, 1, 79, 255] {
        state.places[1].choice = choice;
        assert!(sound(&state));
    }
    for choice in [256, 257, 65_535] {
        state.places[1].choice = choice;
        breaks(state.clone(), soundness::open_filters_chose_a_table_or_all);
    }
}

#[test]
fn free_records() {
    let records = [
        (1, 0, 0, 0, 0),
        (0, 1, 0, 0, 0),
        (0, 2, 0, 0, 0),
        (0, 1, 7, 0, 0),
        (0, 1, 0, 1, 0),
        (0, 0, 0, 0, 1),
        (0, 0, 0, 0, 255),
        (0, 1, 0, 0, 1),
    ];
    for (pid, seen, counter, held, repeated) in records {
        let mut state = right();
        state.areas[7] = Area {
            pid,
            users: 0,
            held,
            seen,
            counter,
            repeated,
        };
        breaks(state, soundness::free_records_are_zero);
    }
    let mut state = right();
    state.places[31].area = 1;
    breaks(state, soundness::free_records_are_zero);
    for choice in [1, 255, 256, 65_535] {
        let mut state = right();
        state.places[31].choice = choice;
        breaks(state, soundness::free_records_are_zero);
    }
}
