//! The packet call: document 01's examples and the rules around them.

use super::driver::{Driver, QUIET, REPEAT};
use super::packet;
use crate::from_payload_to_sections::{packet_call, Answer};
use crate::refusal_numbers::Refusal;

#[test]
fn adaptation_lengths_182_and_183() {
    let mut driver = Driver::new();
    let refused = driver.call(&packet(&[0x47, 0x40, 0, 0x30, 182, 0], 0xFF));
    assert_eq!(refused, Err(Refusal(11)));
    let refused = driver.call(&packet(&[0x47, 0x40, 0, 0x30, 183, 0], 0xFF));
    assert_eq!(refused, Err(Refusal(7)));
}

#[test]
fn pointers_183_and_182() {
    let mut driver = Driver::new();
    let refused = driver.call(&packet(&[0x47, 0x40, 0, 0x10, 183], 0x80));
    assert_eq!(refused, Err(Refusal(11)));
    let answer = driver.wanted(&packet(&[0x47, 0x40, 0, 0x10, 182], 0x80));
    assert_eq!(answer, QUIET);
    assert_eq!(driver.held(), 1);
    assert_eq!(driver.store[..2], [0x80, 0x55]);
}

/// The packets of one section that starts right behind a pointer of 0.
fn packets_of(section: &[u8]) -> Vec<Vec<u8>> {
    let first: &[u8] = &[0x47, 0x40, 0, 0x10, 0];
    let mut packets = vec![[first, &section[..183]].concat()];
    for (index, piece) in section[183..].chunks(184).enumerate() {
        let counter = (index as u8 + 1) % 16;
        let head: &[u8] = &[0x47, 0, 0, 0x10 + counter];
        packets.push(packet(&[head, piece].concat(), 0xFF));
    }
    packets
}

#[test]
fn section_length_4093_is_gathered() {
    let mut section = vec![0x80, 0x0F, 0xFD];
    section.resize(4_096, 0x33);
    let packets = packets_of(&section);
    assert_eq!(packets.len(), 23);
    let mut driver = Driver::new();
    for packet in &packets[..22] {
        assert_eq!(driver.wanted(packet), QUIET);
    }
    assert_eq!(driver.held(), 183 + 21 * 184);
    let answer = driver.wanted(&packets[22]);
    assert_eq!(answer, (1, 4_096, false, false, 0));
    assert_eq!(driver.output[..4_096], section);
    assert_eq!(driver.output[4_096..], [0x66; 182]);
    assert_eq!(driver.held(), 0);
    assert_eq!(driver.store[4_047..], vec![0x55; 32_768 - 4_047]);
}

#[test]
fn section_length_4094_is_given_up() {
    let mut driver = Driver::new();
    let answer = driver.wanted(&packet(&[0x47, 0x40, 0, 0x10, 0, 0x80, 0x0F, 0xFE], 0x33));
    assert_eq!(answer, (0, 0, false, false, 1));
    assert_eq!(driver.held(), 0);
    let mut cut = packet(&[0x47, 0x40, 0, 0x11, 181], 0xFF);
    cut[186..].copy_from_slice(&[0x80, 0x0F]);
    assert_eq!(driver.wanted(&cut), QUIET);
    assert_eq!(driver.held(), 2);
    let next = [0x47, 0x40, 0, 0x12, 1, 0xFE, 0x81, 0, 0];
    let answer = driver.wanted(&packet(&next, 0xFF));
    assert_eq!(answer, (1, 3, false, false, 1));
    assert_eq!(driver.output[..3], [0x81, 0, 0]);
}

#[test]
fn nothing_starts_without_unit_start() {
    let mut driver = Driver::new();
    let mut first = packet(&[0x47, 0x40, 0, 0x10, 180], 0xFF);
    first[185..].copy_from_slice(&[0x80, 0, 2]);
    assert_eq!(driver.wanted(&first), QUIET);
    let second = [0x47, 0, 0, 0x11, 1, 2, 0x81, 0, 0, 0x82, 0, 0];
    let answer = driver.wanted(&packet(&second, 0));
    assert_eq!(answer, (1, 5, false, false, 0));
    assert_eq!(driver.held(), 0);
}

#[test]
fn a_packet_without_payload_changes_nothing() {
    let mut driver = Driver::new();
    let mut first = packet(&[0x47, 0x40, 0, 0x10, 182], 0x80);
    driver.wanted(&first);
    let before = driver.state.clone();
    let without = packet(&[0x47, 0x40, 0, 0x27, 183, 0], 0xFF);
    assert_eq!(driver.wanted(&without), QUIET);
    assert_eq!(driver.state, before);
    assert_eq!(driver.wanted(&first), REPEAT);
    first[4] = 183;
    assert_eq!(driver.call(&first), Err(Refusal(11)));
    let scrambled = packet(&[0x47, 0x40, 0, 0x67, 183, 0], 0xFF);
    assert_eq!(driver.call(&scrambled), Err(Refusal(10)));
}

#[test]
fn a_jump_gives_up_what_is_held() {
    let mut driver = Driver::new();
    driver.wanted(&packet(&[0x47, 0x40, 0, 0x1F, 182], 0x80));
    let next = packet(&[0x47, 0x40, 0, 0x11, 4, 0, 0, 0, 0, 0x80, 0x0F, 0xFF], 0);
    assert_eq!(driver.wanted(&next), (0, 0, true, false, 2));
    let last = packet(&[0x47, 0x40, 0, 0x1F, 0], 0xFF);
    assert_eq!(driver.wanted(&last), (0, 0, true, false, 0));
}

#[test]
fn a_short_rest_gives_up_what_is_held() {
    let mut driver = Driver::new();
    driver.wanted(&packet(&[0x47, 0x40, 0, 0x1F, 182], 0x80));
    let next = packet(&[0x47, 0x40, 0, 0x10, 2, 0, 1, 0x80, 0x0F, 0xFE], 0);
    assert_eq!(driver.wanted(&next), (0, 0, false, false, 2));
}

#[test]
fn sixty_one_sections() {
    let mut full = vec![0x47, 0x40, 0, 0x10, 0];
    for _ in 0..61 {
        full.extend([0x70, 0xF0, 0]);
    }
    let mut driver = Driver::new();
    assert_eq!(driver.wanted(&full), (61, 183, false, false, 0));
}

#[test]
fn contradictions() {
    let mut driver = Driver::new();
    driver.state.areas[0].seen = 1;
    let next = packet(&[0x47, 0, 0, 0x11], 0);
    let cases: [(u16, [u8; 3], bool); 9] = [
        (1, [0xFF, 0, 0], true),
        (1, [0xFE, 0, 0], false),
        (2, [0x80, 0x0F, 0xFE], false),
        (3, [0x80, 0x0F, 0xFE], true),
        (3, [0x80, 0x0F, 0xFD], false),
        (3, [0x80, 0, 0], true),
        (3, [0x80, 0, 1], false),
        (9, [0x80, 0, 6], true),
        (9, [0x80, 0, 7], false),
    ];
    for (held, head, refused) in cases {
        let mut driver = Driver::new();
        driver.state.areas[0].seen = 1;
        driver.state.areas[0].held = held;
        driver.store[..3].copy_from_slice(&head);
        assert_eq!(driver.call(&next) == Err(Refusal(9)), refused);
    }
}

#[test]
fn lent_sizes() {
    let mut driver = Driver::new();
    let sizes = [
        (32_768, 4_278, 61, 2),
        (32_768, 8_192, 62, 2),
        (32_767, 4_278, 61, 3),
        (32_769, 4_278, 61, 3),
        (32_768, 4_277, 61, 3),
        (32_768, 4_278, 60, 3),
        (32_768, 4_278, 0, 3),
    ];
    for (store, output, list, refusal) in sizes {
        let (store, output) = (&mut vec![0; store], &mut vec![0; output]);
        let lent = packet_call(&mut driver.state, store, output, &mut vec![0; list], &[]);
        assert_eq!(lent, Err(Refusal(refusal)));
    }
}

#[test]
fn the_order_of_refusals() {
    let mut driver = Driver::new();
    let faults = [0x46, 0x9F, 0xFF, 0xC0];
    let short = driver.call(&faults);
    assert_eq!(short, Err(Refusal(2)));
    let steps = [
        ([0x46, 0x9F, 0xFF, 0xC0, 200, 0x10], Err(Refusal(4))),
        ([0x47, 0x9F, 0xFF, 0xC0, 200, 0x10], Err(Refusal(5))),
        ([0x47, 0x1F, 0xFF, 0xC0, 200, 0x10], Err(Refusal(6))),
        ([0x47, 0x1F, 0xFF, 0xF0, 200, 0x10], Err(Refusal(7))),
        ([0x47, 0x1F, 0xFF, 0xF0, 6, 0x10], Err(Refusal(7))),
        ([0x47, 0x1F, 0xFF, 0xF0, 7, 0x10], Err(Refusal(8))),
        ([0x47, 0x1F, 0xFF, 0xF0, 7, 0x00], Ok(Answer::Unwanted)),
        ([0x47, 0x40, 0x00, 0xF0, 7, 0x00], Err(Refusal(10))),
        ([0x47, 0x40, 0x00, 0x30, 7, 0x00], Err(Refusal(11))),
    ];
    for (first, answer) in steps {
        assert_eq!(driver.call(&packet(&first, 0xFF)), answer);
    }
}
