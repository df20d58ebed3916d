//! Filters that chose one table or all: request 2's examples and the rules' edges.

use super::driver::{Driver, QUIET, REPEAT, UNSET};
use super::packet;
use crate::filters_and_areas::{close, open};
use crate::from_payload_to_sections::{packet_call, Answer};
use crate::refusal_numbers::Refusal;
use crate::state::{Choice, Place, State};

/// The choices of request 2's example.
const GUIDE: [Choice; 3] = [Choice::All, Choice::One(78), Choice::One(80)];

/// A packet of PID 18 with the counter, the pointer 0 and some sections, filled up with 0xFF.
fn sections(counter: u8, sections: &[u8]) -> Vec<u8> {
    let head: &[u8] = &[0x47, 0x40, 18, 0x10 + counter, 0];
    packet(&[head, sections].concat(), 0xFF)
}

/// A packet of PID 18 with the counter that goes on with bytes 0x2A.
fn rest(counter: u8) -> Vec<u8> {
    packet(&[0x47, 0, 18, 0x10 + counter], 0x2A)
}

/// The four sections of request 2's example.
fn four() -> Vec<u8> {
    let four = [
        0x4E, 0x30, 0, 0x42, 0x30, 1, 0xAA, 0x50, 0x30, 0, 0x4E, 0x30, 2, 0xBB, 0xCC,
    ];
    sections(0, &four)
}

#[test]
fn the_examples_of_request_2() {
    let mut driver = Driver::with(18, &GUIDE);
    let told = (4, 15, false, false, 0);
    assert_eq!(driver.handed_out(&four()), (told, vec![3, 1, 5, 3]));
    assert_eq!(close(&mut driver.state, 1), Ok(()));
    let two = sections(1, &[0x42, 0x30, 0, 0x50, 0x30, 0]);
    let told = (2, 6, false, false, 0);
    assert_eq!(driver.handed_out(&two), (told, vec![0, 4]));
    assert_eq!(driver.output[..6], [0x42, 0x30, 0, 0x50, 0x30, 0]);
}

#[test]
fn sixty_one_sets() {
    let mut driver = Driver::with(18, &GUIDE);
    let tables = [0x4E, 0x42, 0x50].iter().cycle().take(61);
    let full: Vec<u8> = tables.flat_map(|table| [*table, 0x30, 0]).collect();
    let sets: Vec<u32> = [3, 1, 5].iter().copied().cycle().take(61).collect();
    let told = (61, 183, false, false, 0);
    assert_eq!(driver.handed_out(&sections(0, &full)), (told, sets));
}

#[test]
fn a_refused_call_writes_no_set() {
    let mut driver = Driver::with(18, &GUIDE);
    let mut contradicting = driver.state.clone();
    contradicting.areas[0].seen = 1;
    contradicting.areas[0].held = 1;
    let Driver {
        state,
        store,
        output,
        list,
    } = &mut driver;
    let before = state.clone();
    let refused = packet_call(state, store, output, &mut list[..60], &four());
    assert_eq!((refused, &*state), (Err(Refusal(3)), &before));
    store[0] = 0xFF;
    let refused = packet_call(&mut contradicting, store, output, list, &four());
    assert_eq!(refused, Err(Refusal(9)));
    let mut other = four();
    other[2] = 19;
    let unwanted = packet_call(state, store, output, list, &other);
    assert_eq!((unwanted, &*state), (Ok(Answer::Unwanted), &before));
    assert_eq!(
        (&output[..], &list[..]),
        (&[0x66; 4_278][..], &[UNSET; 61][..])
    );
}

#[test]
fn a_repeat_and_a_packet_without_payload_write_no_set() {
    let mut driver = Driver::with(18, &GUIDE);
    driver.handed_out(&four());
    assert_eq!(driver.handed_out(&four()), (REPEAT, vec![]));
    let without = packet(&[0x47, 0x40, 18, 0x20, 183, 0], 0xFF);
    assert_eq!(driver.handed_out(&without), (QUIET, vec![]));
}

#[test]
fn the_order_of_opens_refusals() {
    let mut state = State::fresh();
    let refused = Err(Refusal(17));
    assert_eq!(open(&mut state, 18, Choice::One(255)), refused);
    assert_eq!(open(&mut state, 0x1FFE, Choice::One(255)), refused);
    assert_eq!(open(&mut state, 0x1FFF, Choice::One(255)), Err(Refusal(12)));
    assert_eq!(state, State::fresh());
    for pid in 0..8 {
        assert!(open(&mut state, pid, Choice::One(254)).is_ok());
    }
    assert_eq!(open(&mut state, 8, Choice::One(255)), refused);
    assert_eq!(open(&mut state, 8, Choice::One(254)), Err(Refusal(15)));
    for _ in 8..32 {
        assert!(open(&mut state, 7, Choice::One(0)).is_ok());
    }
    assert_eq!(open(&mut state, 7, Choice::One(255)), refused);
    assert_eq!(open(&mut state, 7, Choice::All), Err(Refusal(14)));
    state.next = 65_536;
    assert_eq!(open(&mut state, 7, Choice::One(255)), refused);
    assert_eq!(open(&mut state, 7, Choice::One(254)), Err(Refusal(13)));
}

#[test]
fn the_numbers_of_choices() {
    let choices = [
        (Choice::All, 0),
        (Choice::One(0), 1),
        (Choice::One(78), 79),
        (Choice::One(254), 255),
    ];
    for (choice, number) in choices {
        let driver = Driver::with(18, &[choice]);
        let place = Place {
            number: 1,
            area: 0,
            choice: number,
        };
        assert_eq!(driver.state.places[0], place);
    }
    assert_eq!(Choice::One(255).number(), 256);
}

#[test]
fn a_choice_lets_its_table_through_and_no_other() {
    let tables = [0, 1, 78, 253, 254];
    let all: Vec<u8> = tables.iter().flat_map(|table| [*table, 0x30, 0]).collect();
    for chosen in 0..=254 {
        let mut driver = Driver::with(18, &[Choice::One(chosen)]);
        let sets = tables.map(|table| u32::from(table == chosen));
        let told = (5, 15, false, false, 0);
        assert_eq!(driver.handed_out(&sections(0, &all)), (told, sets.to_vec()));
    }
}

#[test]
fn filters_with_different_choices_share_an_area() {
    let mut driver = Driver::with(18, &GUIDE);
    assert_eq!(open(&mut driver.state, 19, Choice::One(78)), Ok((4, 3)));
    assert_eq!(driver.state.areas[0].users, 3);
    assert_eq!(driver.state.areas[1].users, 1);
    assert_eq!(driver.handed_out(&four()).1, vec![3, 1, 5, 3]);
    let mut other = four();
    other[2] = 19;
    assert_eq!(driver.handed_out(&other).1, vec![8, 0, 0, 8]);
    for number in [2, 3] {
        assert_eq!(close(&mut driver.state, number), Ok(()));
    }
    assert_eq!(driver.state.areas[0].users, 1);
    assert_eq!(driver.state.areas[0].counter, 0);
    assert_eq!(driver.handed_out(&rest(1)), (QUIET, vec![]));
}

#[test]
fn a_section_that_nobody_lets_through_is_gathered_all_the_same() {
    let mut driver = Driver::with(18, &[Choice::One(80)]);
    let first = packet(&[0x47, 0x40, 18, 0x10, 0, 0x4E, 0xB1, 0x2C], 0x2A);
    assert_eq!(driver.handed_out(&first), (QUIET, vec![]));
    assert_eq!(driver.held(), 183);
    let told = (1, 303, false, false, 0);
    assert_eq!(driver.handed_out(&rest(1)), (told, vec![0]));
    assert_eq!(driver.output[..4], [0x4E, 0xB1, 0x2C, 0x2A]);
}

#[test]
fn a_filter_opened_in_the_midst_of_a_section() {
    for (choice, set) in [
        (Choice::All, 3),
        (Choice::One(78), 3),
        (Choice::One(80), 1),
        (Choice::One(0x2A), 1),
    ] {
        let mut driver = Driver::with(18, &[Choice::One(78)]);
        let first = packet(&[0x47, 0x40, 18, 0x10, 0, 0x4E, 0xB1, 0x2C], 0x2A);
        assert_eq!(driver.handed_out(&first), (QUIET, vec![]));
        assert_eq!(open(&mut driver.state, 18, choice), Ok((2, 1)));
        let told = (1, 303, false, false, 0);
        assert_eq!(driver.handed_out(&rest(1)), (told, vec![set]));
    }
}

#[test]
fn a_closed_place_keeps_no_choice() {
    let mut driver = Driver::with(18, &GUIDE);
    assert_eq!(close(&mut driver.state, 2), Ok(()));
    assert_eq!(driver.state.places[1], Place::default());
    assert_eq!(open(&mut driver.state, 18, Choice::All), Ok((4, 1)));
    assert_eq!(driver.handed_out(&four()).1, vec![3, 3, 7, 3]);
}

#[test]
fn the_last_place_is_the_highest_bit() {
    let mut driver = Driver::with(18, &[Choice::One(78); 32]);
    assert_eq!(driver.handed_out(&four()).1, vec![u32::MAX, 0, 0, u32::MAX]);
    for number in 1..32 {
        assert_eq!(close(&mut driver.state, number), Ok(()));
    }
    let next = sections(1, &[0x4E, 0x30, 0]);
    assert_eq!(driver.handed_out(&next).1, vec![2_147_483_648]);
}
