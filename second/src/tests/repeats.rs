//! The counter that stands still: repeats, jumps and the mark between them.

use super::driver::{Driver, Told, QUIET, REPEAT};
use super::packet;
use crate::filters_and_areas::{close, open};
use crate::refusal_numbers::Refusal;
use crate::state::Choice;

/// The answer to a section of four bytes, and the same after a jump.
const SECTION: Told = (1, 4, false, false, 0);
const JUMP: Told = (1, 4, true, false, 0);

/// A packet with the counter and a section of four bytes.
fn whole(counter: u8) -> Vec<u8> {
    let first = [0x47, 0x40, 0, 0x10 + counter, 0, 0x80, 0x30, 1, 0xAA];
    packet(&first, 0xFF)
}

/// A packet with the counter and the first 183 bytes of a section of 303.
fn unfinished(counter: u8) -> Vec<u8> {
    let first = [0x47, 0x40, 0, 0x10 + counter, 0, 0x80, 0xB1, 0x2C];
    packet(&first, 0x2A)
}

/// A packet with the counter and bytes that go on.
fn rest(counter: u8) -> Vec<u8> {
    packet(&[0x47, 0, 0, 0x10 + counter], 0x2A)
}

#[test]
fn a_stuck_counter_alternates() {
    let mut driver = Driver::new();
    for (answer, mark) in [(SECTION, 0), (REPEAT, 1), (JUMP, 0), (REPEAT, 1), (JUMP, 0)] {
        assert_eq!(driver.wanted(&whole(3)), answer);
        assert_eq!(driver.repeated(), mark);
    }
}

#[test]
fn a_repeat_changes_no_more_than_the_mark() {
    let mut driver = Driver::new();
    assert_eq!(driver.wanted(&unfinished(3)), QUIET);
    let (mut state, store) = (driver.state.clone(), driver.store.clone());
    let output = driver.output.clone();
    state.areas[0].repeated = 1;
    assert_eq!(driver.wanted(&whole(3)), REPEAT);
    assert_eq!(driver.state, state);
    assert_eq!(driver.store, store);
    assert_eq!(driver.output, output);
}

#[test]
fn a_packet_without_payload_leaves_the_mark() {
    let mut driver = Driver::new();
    let without = packet(&[0x47, 0, 0, 0x23, 183, 0], 0xFF);
    for mark in [0, 1, 0] {
        driver.wanted(&whole(3));
        let before = driver.state.clone();
        assert_eq!(driver.repeated(), mark);
        assert_eq!(driver.wanted(&without), QUIET);
        assert_eq!(driver.state, before);
    }
}

#[test]
fn refused_packets_leave_the_mark() {
    let refused: [(&[u8], u32); 7] = [
        (&[0x46, 0x40, 0, 0x13], 4),
        (&[0x47, 0xC0, 0, 0x13], 5),
        (&[0x47, 0x40, 0, 0x03], 6),
        (&[0x47, 0x40, 0, 0x33, 183], 7),
        (&[0x47, 0x40, 0, 0x33, 7, 0x10], 8),
        (&[0x47, 0x40, 0, 0x53], 10),
        (&[0x47, 0x40, 0, 0x13, 183], 11),
    ];
    let mut driver = Driver::new();
    for answer in [SECTION, REPEAT, JUMP] {
        assert_eq!(driver.wanted(&whole(3)), answer);
        let before = driver.state.clone();
        for (first, number) in refused {
            assert_eq!(driver.call(&packet(first, 0xFF)), Err(Refusal(number)));
            assert_eq!(driver.state, before);
        }
    }
}

#[test]
fn a_contradiction_is_refused_before_a_repeat_is_dropped() {
    let mut driver = Driver::new();
    driver.wanted(&unfinished(3));
    for answer in [REPEAT, (0, 0, true, false, 1)] {
        let before = driver.state.clone();
        driver.store[0] = 0xFF;
        assert_eq!(driver.call(&rest(3)), Err(Refusal(9)));
        assert_eq!(driver.state, before);
        driver.store[0] = 0x80;
        assert_eq!(driver.wanted(&rest(3)), answer);
    }
}

#[test]
fn an_original_forgets_the_repeat() {
    let mut driver = Driver::new();
    for counter in [14, 15, 0, 1] {
        assert_eq!(driver.wanted(&whole(counter)), SECTION);
        assert_eq!(driver.repeated(), 0);
        assert_eq!(driver.wanted(&whole(counter)), REPEAT);
    }
}

#[test]
fn a_jump_to_another_counter_forgets_the_repeat() {
    let mut driver = Driver::new();
    assert_eq!(driver.wanted(&whole(3)), SECTION);
    assert_eq!(driver.wanted(&whole(3)), REPEAT);
    for counter in [5, 4, 12] {
        assert_eq!(driver.wanted(&whole(counter)), JUMP);
        assert_eq!(driver.wanted(&whole(counter)), REPEAT);
    }
}

#[test]
fn a_stuck_counter_gives_up_what_is_held() {
    let mut driver = Driver::new();
    driver.wanted(&unfinished(3));
    assert_eq!(driver.wanted(&rest(3)), REPEAT);
    assert_eq!(driver.held(), 183);
    assert_eq!(driver.wanted(&rest(3)), (0, 0, true, false, 1));
    assert_eq!(driver.held(), 0);
}

#[test]
fn the_jump_of_a_stuck_counter_is_gathered() {
    let mut driver = Driver::new();
    driver.wanted(&unfinished(3));
    assert_eq!(driver.wanted(&whole(3)), REPEAT);
    assert_eq!(driver.wanted(&whole(3)), (1, 4, true, false, 1));
    assert_eq!(driver.output[..5], [0x80, 0x30, 1, 0xAA, 0x66]);
    assert_eq!(driver.wanted(&unfinished(3)), REPEAT);
    assert_eq!(driver.wanted(&unfinished(3)), (0, 0, true, false, 0));
    assert_eq!(driver.held(), 183);
    assert_eq!(driver.wanted(&rest(4)), (1, 303, false, false, 0));
}

#[test]
fn an_area_taken_anew_starts_with_an_original() {
    let mut driver = Driver::new();
    for (number, counter) in [(1, 3), (2, 3), (3, 9)] {
        assert_eq!(driver.wanted(&whole(counter)), SECTION);
        assert_eq!(driver.wanted(&whole(counter)), REPEAT);
        assert_eq!(close(&mut driver.state, number), Ok(()));
        let opened = open(&mut driver.state, 0, Choice::All);
        assert_eq!(opened, Ok((number + 1, 0)));
        assert_eq!(driver.repeated(), 0);
    }
}

#[test]
fn a_mark_set_by_record() {
    let answers = [(3, (0, 0, true, false, 1)), (4, (1, 303, false, false, 0))];
    for (counter, answer) in answers {
        let mut driver = Driver::new();
        driver.wanted(&unfinished(3));
        driver.state.areas[0].repeated = 1;
        assert_eq!(driver.wanted(&rest(counter)), answer);
        assert_eq!(driver.repeated(), 0);
    }
}
