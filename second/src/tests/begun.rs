//! How many sections a packet begins: request 10's examples and the ways in which a packet can end.

use super::driver::{Counted, Driver};
use super::packet;

/// A section of three bytes.
const SHORTEST: [u8; 3] = [0x70, 0xF0, 0];

/// A packet with the counter, the pointer 0, sections of three bytes and some last bytes, filled up with 0xFF.
fn shortest(counter: u8, many: usize, last: &[u8]) -> Vec<u8> {
    let head: &[u8] = &[0x47, 0x40, 0, 0x10 + counter, 0];
    packet(&[head, &SHORTEST.repeat(many), last].concat(), 0xFF)
}

/// A packet from its first bytes on, with some last bytes and one byte in between.
fn between(first: &[u8], fill: u8, last: &[u8]) -> Vec<u8> {
    let mut packet = first.to_vec();
    packet.resize(188 - last.len(), fill);
    packet.extend(last);
    packet
}

#[test]
fn the_examples_of_request_10() {
    let three = [
        0x47, 0x40, 0, 0x10, 0, 0x80, 0x30, 1, 0xAA, 0x81, 0x30, 0, 0x82, 0xB1, 0x2C,
    ];
    let mut ending = between(&[0x47, 0x40, 0, 0x11, 0x7F], 0x2A, &[0xFF; 53]);
    ending[132..135].copy_from_slice(&[0x83, 0x30, 0]);
    let cut = [
        0x47, 0x40, 0, 0x19, 0, 0x85, 0x30, 0, 0x86, 0x30, 0, 0x87, 0x3F, 0xFE,
    ];
    let steps: [(Vec<u8>, Counted); 11] = [
        (packet(&three, 0x2A), (3, 2, 0, 0, 176)),
        (packet(&three, 0x2A), (0, 0, 0, 176, 176)),
        (ending, (1, 2, 0, 176, 0)),
        (packet(&[0x47, 0x40, 0, 0x12, 0], 0xFF), (0, 0, 0, 0, 0)),
        (shortest(3, 0, &[0x84, 0xB1, 0x2C]), (1, 0, 0, 0, 183)),
        (packet(&cut, 0xFF), (3, 2, 2, 183, 0)),
        (
            between(&[0x47, 0x40, 0, 0x1A, 0xB6], 0xFF, &[0x80]),
            (1, 0, 0, 0, 1),
        ),
        (packet(&[0x47, 0, 0, 0x1B, 0x0F, 0xFE], 0), (0, 0, 1, 1, 0)),
        (shortest(12, 61, &[]), (61, 61, 0, 0, 0)),
        (shortest(13, 60, &[0x70, 0xF0, 1]), (61, 60, 0, 0, 3)),
        (packet(&[0x47, 0, 0, 0x1E], 0x2A), (0, 1, 0, 3, 0)),
    ];
    let mut driver = Driver::new();
    for (packet, counted) in steps {
        assert_eq!(driver.counted(&packet), counted);
    }
}

#[test]
fn the_ways_in_which_a_packet_ends() {
    let endings: [(usize, &[u8], Counted); 6] = [
        (60, &[0xFF], (60, 60, 0, 0, 0)),
        (60, &[0x70, 0x0F, 0xFE], (61, 60, 1, 0, 0)),
        (60, &[0x70, 0x0F, 0xFD], (61, 60, 0, 0, 3)),
        (58, &[0x70, 0xF0, 5, 1, 2, 3, 4, 5, 0x71], (60, 59, 0, 0, 1)),
        (59, &[0x70, 0xF0, 1, 1, 0x71, 0xF0], (61, 60, 0, 0, 2)),
        (61, &[], (61, 61, 0, 0, 0)),
    ];
    for (many, last, counted) in endings {
        let mut driver = Driver::new();
        assert_eq!(driver.counted(&shortest(0, many, last)), counted);
    }
}

#[test]
fn a_section_that_goes_on_is_not_begun_again() {
    let mut driver = Driver::new();
    let first = packet(&[0x47, 0x40, 0, 0x10, 0, 0x80, 0xB2, 0], 0x2A);
    assert_eq!(driver.counted(&first), (1, 0, 0, 0, 183));
    let next = packet(&[0x47, 0, 0, 0x11], 0x2A);
    assert_eq!(driver.counted(&next), (0, 0, 0, 183, 367));
    // the p bytes end it, and behind them two more begin, of which the second is held
    let head: &[u8] = &[0x47, 0x40, 0, 0x12, 148];
    let last = packet(&[head, &[0x2A; 148], &[0x81, 0x30, 0, 0x82]].concat(), 0x30);
    assert_eq!(driver.counted(&last), (2, 2, 0, 367, 32));
}
