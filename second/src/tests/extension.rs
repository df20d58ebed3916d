//! The adaptation field's extension: request 6's rows, their edges and their order.

use super::driver::Driver;
use super::packet;
use crate::bits::Bits;
use crate::from_payload_to_sections::Answer;
use crate::refusal_numbers::Refusal;
use crate::the_packet::{read_packet, Adaptation, Part, Window};
use crate::time::AnyStamp;

/// The bytes of request 6's first example: a window, a rate and a splice.
const WINDOW: [u8; 2] = [0x92, 0x34];
const RATE: [u8; 3] = [0xEA, 0xBC, 0xDE];
const SPLICE: [u8; 5] = [0x51, 0x00, 0x05, 0xBF, 0x21];

/// The flags byte and the parts of the example that it flags.
fn flagged(flags: u8) -> Vec<u8> {
    let parts: [(u8, &[u8]); 3] = [(0x80, &WINDOW), (0x40, &RATE), (0x20, &SPLICE)];
    let there = parts.iter().filter(|(flag, _)| flags & flag != 0);
    let inside: Vec<u8> = there.flat_map(|(_, part)| part.to_vec()).collect();
    [&[flags], &inside[..]].concat()
}

/// A packet of PID 256 with an extension alone in its field: the size told, then the bytes.
fn extended(size: usize, inside: &[u8]) -> Vec<u8> {
    let length = 2 + inside.len().max(size) as u8;
    let head: &[u8] = &[0x47, 0x01, 0x00, 0x30, length, 0x01, size as u8];
    packet(&[head, inside].concat(), 0xFF)
}

fn read(packet: &[u8]) -> Result<Adaptation, Refusal> {
    read_packet(packet).map(|reading| reading.adaptation.unwrap())
}

/// The field of a packet with a right extension in it.
fn read_inside(inside: &[u8]) -> Adaptation {
    read(&extended(inside.len(), inside)).unwrap()
}

#[test]
fn each_part_is_there_where_it_is_flagged() {
    for flags in 0..=255 {
        let field = read_inside(&flagged(flags));
        let there = |flag: u8| flags & flag != 0;
        let window = Window {
            valid: true,
            offset: 4_660,
        };
        let splice = AnyStamp {
            kind: 5,
            stamp: 90_000,
        };
        assert_eq!(field.window, there(0x80).then_some(window));
        assert_eq!(field.rate, there(0x40).then_some(2_800_862));
        assert_eq!(field.splice, there(0x20).then_some(splice));
        let size = flagged(flags).len();
        assert_eq!(field.extension, Some(Part { start: 7, size }));
    }
}

#[test]
fn the_parts_lie_inside_the_size() {
    let needs = [1, 6, 4, 9, 3, 8, 6, 11];
    for (flags, need) in (0..=255).map(|flags: u8| (flags, needs[usize::from(flags / 32)])) {
        let inside = flagged(flags);
        assert_eq!(inside.len(), need);
        for size in 0..need {
            let refused = read(&extended(size, &inside));
            assert_eq!(refused, Err(Refusal(7)), "{} {}", flags, size);
        }
        let exact = read_inside(&inside);
        for size in [need + 1, need + 2, 180] {
            let field = read(&extended(size, &inside)).unwrap();
            let told = (field.window, field.rate, field.splice);
            assert_eq!(told, (exact.window, exact.rate, exact.splice));
            assert_eq!(field.extension, Some(Part { start: 7, size }));
        }
    }
}

#[test]
fn no_extension_has_no_part() {
    let without = packet(&[0x47, 0x01, 0x00, 0x30, 13, 0x00, 11, 0xE0], 0);
    let field = Adaptation {
        length: 13,
        ..Adaptation::default()
    };
    assert_eq!(read(&without), Ok(field));
}

#[test]
fn values_are_told_as_they_stand() {
    let windows = [
        ([0x00, 0x00], false, 0),
        ([0x80, 0x00], true, 0),
        ([0x00, 0x01], false, 1),
        ([0x7F, 0xFF], false, 32_767),
        ([0xFF, 0xFF], true, 32_767),
        ([0x40, 0x00], false, 16_384),
    ];
    for (bytes, valid, offset) in windows {
        let field = read_inside(&[0x80, bytes[0], bytes[1]]);
        assert_eq!(field.window, Some(Window { valid, offset }));
    }
    let rates = [
        ([0x00, 0x00, 0x00], 0),
        ([0xC0, 0x00, 0x00], 0),
        ([0x00, 0x00, 0x01], 1),
        ([0x20, 0x00, 0x00], 2_097_152),
        ([0x3F, 0xFF, 0xFF], 4_194_303),
        ([0xFF, 0xFF, 0xFF], 4_194_303),
    ];
    for (bytes, rate) in rates {
        let field = read_inside(&[&[0x40], &bytes[..]].concat());
        assert_eq!(field.rate, Some(rate));
    }
}

#[test]
fn every_type_and_each_marker() {
    for kind in 0..16 {
        for markers in 0..8u8 {
            let bit = |place: u8| markers >> place & 1;
            let first = kind as u8 * 16 + 0x0E + bit(2);
            let splice = [0x20, first, 0xFF, 0xFE + bit(1), 0xFF, 0xFE + bit(0)];
            let stamp = 8_589_934_591;
            let expected = match markers {
                7 => Ok(Some(AnyStamp { kind, stamp })),
                _ => Err(Refusal(36)),
            };
            let field = read(&extended(6, &splice));
            assert_eq!(field.map(|field| field.splice), expected);
            let unflagged = [&[0xC0], &WINDOW[..], &RATE[..], &splice[1..]].concat();
            assert_eq!(read_inside(&unflagged).splice, None);
        }
    }
}

/// A packet without payload whose private data ends where the last bytes begin.
fn ending(last: &[u8]) -> Vec<u8> {
    let private = (181 - last.len()) as u8;
    let mut packet = packet(&[0x47, 0x01, 0x00, 0x20, 183, 0x03, private], 0xAA);
    packet.splice(188 - last.len().., last.iter().copied());
    packet
}

#[test]
fn at_the_end_of_the_packet() {
    let cases: [(&[u8], bool); 9] = [
        (&[], false),
        (&[0], false),
        (&[1], false),
        (&[0, 0x1F], false),
        (&[1, 0x1F], true),
        (&[1, 0x80], false),
        (&[2, 0x1F], false),
        (&[3, 0x80, 0, 0], true),
        (&[4, 0x80, 0, 0], false),
    ];
    for (last, right) in cases {
        let packet = ending(last);
        assert_eq!(packet.len(), 188);
        match read(&packet) {
            Ok(field) => assert!(right && field.rate.is_none() && field.splice.is_none()),
            refused => assert_eq!((right, refused), (false, Err(Refusal(7)))),
        }
    }
    let last = [&[6, 0x20], &SPLICE[..]].concat();
    assert_eq!(read(&ending(&last)).unwrap().splice.unwrap().stamp, 90_000);
}

#[test]
fn the_order_of_refusals() {
    let wrong: [u8; 5] = [0x50, 0x00, 0x05, 0xBF, 0x21];
    let late = [0, 0, 0, 0, 0x7F, 0x2C];
    let right = [0, 0, 0, 0, 0x7F, 0x2B];
    let steps = [
        ([0x46, 0x81, 0, 0x00, 13, 0x11], late, 5, 4),
        ([0x47, 0x81, 0, 0x00, 13, 0x11], late, 5, 5),
        ([0x47, 0x01, 0, 0x00, 13, 0x11], late, 5, 6),
        ([0x47, 0x01, 0, 0x20, 13, 0x11], late, 5, 7),
        ([0x47, 0x01, 0, 0x30, 13, 0x11], late, 6, 7),
        ([0x47, 0x01, 0, 0x30, 14, 0x11], late, 5, 7),
        ([0x47, 0x01, 0, 0x30, 14, 0x11], late, 0, 7),
        ([0x47, 0x01, 0, 0x30, 14, 0x11], late, 6, 8),
        ([0x47, 0x01, 0, 0x30, 14, 0x09], late, 6, 8),
        ([0x47, 0x01, 0, 0x30, 14, 0x11], right, 6, 36),
        ([0x47, 0x01, 0, 0x30, 14, 0x09], right, 6, 36),
    ];
    for (head, clock, size, refusal) in steps {
        let parts = [&clock[..], &[size, 0x20], &wrong].concat();
        let packet = packet(&[&head[..], &parts].concat(), 0xFF);
        assert_eq!(read(&packet), Err(Refusal(refusal)));
        assert_eq!(read(&packet[..187]), Err(Refusal(2)));
    }
}

#[test]
fn a_wrong_marker_in_the_packet_call() {
    let mut driver = Driver::new();
    driver
        .call(&packet(&[0x47, 0x40, 0, 0x10, 182], 0x80))
        .unwrap();
    let before = (driver.state.clone(), driver.store.clone());
    let parts = [0x01, 0x06, 0x20, 0x50, 0x00, 0x05, 0xBF, 0x21];
    let answers = [
        ([0x47, 0x41, 0, 0xF1, 8], Ok(Answer::Unwanted)),
        ([0x47, 0x40, 0, 0xF1, 8], Err(Refusal(10))),
        ([0x47, 0x40, 0, 0x31, 8], Err(Refusal(11))),
    ];
    for (head, answer) in answers {
        let mut packet = packet(&[&head[..], &parts[..]].concat(), 0xFF);
        assert_eq!(driver.call(&packet), Err(Refusal(36)));
        packet[8] = 0x51;
        assert_eq!(driver.call(&packet), answer);
    }
    driver.store[0] = 0xFF;
    let mut contradicting = packet(&[0x47, 0x40, 0, 0x31, 8], 0xFF);
    contradicting.splice(5..13, parts);
    assert_eq!(driver.call(&contradicting), Err(Refusal(36)));
    contradicting[8] = 0x51;
    assert_eq!(driver.call(&contradicting), Err(Refusal(9)));
    driver.store[0] = 0x80;
    assert_eq!((driver.state, driver.store), before);
}

#[test]
fn bits_are_cut_by_their_widths() {
    let mut bits = Bits::of(&[0b1010_0110, 0b0111_0000, 0xFF], 9);
    assert_eq!(bits.cut([1, 3, 5]), Ok([1, 2, 12]));
    assert_eq!(bits.cut_flagged(0, [64]), Ok(None));
    assert_eq!(bits.cut_flagged(1, [3, 4]), Ok(Some([7, 0])));
    assert_eq!(bits.cut([9]), Err(Refusal(9)));
    assert_eq!(bits.cut([8]), Ok([255]));
    assert_eq!(bits.cut_flagged(1, [1]), Err(Refusal(9)));
    assert_eq!(bits.cut([]), Ok([]));
    assert_eq!(Bits::of(&[0xFF; 8], 0).cut([64]), Ok([u64::MAX]));
}
