//! Open and close.

use crate::filters_and_areas::{self, close};
use crate::refusal_numbers::Refusal;
use crate::state::{Area, Choice, Place, State};
use crate::the_packet::make_pid;

/// Opens a filter that lets all through.
fn open(state: &mut State, pid: u16) -> Result<(u16, usize), Refusal> {
    filters_and_areas::open(state, pid, Choice::All)
}

#[test]
fn a_ninth_pid_is_refused_and_a_second_filter_is_not() {
    let mut state = State::fresh();
    for pid in 0..8 {
        let number = pid + 1;
        assert_eq!(open(&mut state, pid), Ok((number, usize::from(pid))));
    }
    let before = state.clone();
    assert_eq!(open(&mut state, 8), Err(Refusal(15)));
    assert_eq!(state, before);
    assert_eq!(open(&mut state, 7), Ok((9, 8)));
    assert_eq!(state.areas[7].users, 2);
}

#[test]
fn pids_that_no_filter_has() {
    let mut state = State::fresh();
    for pid in [0x1FFF, 0x2000, 0xFFFF] {
        assert_eq!(open(&mut state, pid), Err(Refusal(12)));
    }
    assert_eq!(open(&mut state, 0x1FFE), Ok((1, 0)));
    assert_eq!(make_pid(0x1FFF), Ok(0x1FFF));
    assert_eq!(make_pid(0x2000), Err(Refusal(12)));
}

#[test]
fn all_numbers_and_all_places() {
    let mut state = State::fresh();
    for place in 0..32 {
        assert_eq!(open(&mut state, 5), Ok((place as u16 + 1, place)));
    }
    assert_eq!(open(&mut state, 5), Err(Refusal(14)));
    state.next = 65_536;
    assert_eq!(open(&mut state, 5), Err(Refusal(13)));
    let mut state = State::fresh();
    for number in 1..=65_535 {
        assert_eq!(open(&mut state, 5), Ok((number, 0)));
        assert_eq!(close(&mut state, number), Ok(()));
    }
    assert_eq!(open(&mut state, 5), Err(Refusal(13)));
}

#[test]
fn the_area_goes_with_the_last_filter() {
    let mut state = State::fresh();
    assert_eq!(open(&mut state, 5), Ok((1, 0)));
    assert_eq!(open(&mut state, 6), Ok((2, 1)));
    assert_eq!(open(&mut state, 5), Ok((3, 2)));
    state.areas[0].seen = 1;
    state.areas[0].held = 9;
    state.areas[0].counter = 3;
    state.areas[0].repeated = 1;
    let area = state.areas[0];
    assert_eq!(close(&mut state, 1), Ok(()));
    assert_eq!(state.areas[0], Area { users: 1, ..area });
    assert_eq!(close(&mut state, 1), Err(Refusal(16)));
    assert_eq!(close(&mut state, 0), Err(Refusal(16)));
    assert_eq!(close(&mut state, 3), Ok(()));
    assert_eq!(state.areas[0], Area::default());
    assert_eq!(open(&mut state, 7), Ok((4, 0)));
    let place = Place {
        number: 4,
        area: 0,
        choice: 0,
    };
    assert_eq!(state.places[0], place);
}
