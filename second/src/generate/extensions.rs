//! Extensions of adaptation fields as generators put them together, each with its length byte first.

use super::random::Random;
use crate::numbers_of_the_house::STAMP_TURN;
use crate::time::{write_stamp, STAMP_BYTES};

/// How many bytes an extension has where all is flagged and nothing is left.
pub const WHOLE: usize = 11;

const WINDOW: u8 = 0x80;
const RATE: u8 = 0x40;
const SPLICE: u8 = 0x20;

/// A right extension, in so much room for it and its length byte.
pub fn extension(random: &mut Random, room: usize) -> Vec<u8> {
    let most = room.saturating_sub(1);
    let flags = flags_within(random, most);
    let parts = parts(random, flags);
    let spare = most.saturating_sub(parts.len());
    let rest = match random.below(8) {
        0 => spare,
        1 => spare.min(1),
        2 => random.below(spare.min(12) + 1),
        _ => 0,
    };
    let size = parts.len() + rest;
    told(random, size, parts)
}

/// An extension whose length byte is right, off by one or 0, and whose splice may lack a marker.
pub fn edge(random: &mut Random) -> Vec<u8> {
    let flags = flags_within(random, WHOLE);
    let mut parts = parts(random, flags);
    if random.one_in(3) {
        unmark_splice(random, &mut parts);
    }
    let need = parts.len();
    let size = match random.below(8) {
        0 => 0,
        1 => need - 1,
        2 => need + 1,
        3 => need + random.below(60),
        _ => need,
    };
    // The bytes that are too many are stuffing or payload, or other bytes stand in their places.
    if random.one_in(2) {
        parts.truncate(size);
    }
    told(random, size, parts)
}

/// An extension that is right but for its splice's markers.
pub fn unmarked(random: &mut Random) -> Vec<u8> {
    let flags = flags_within(random, WHOLE) | SPLICE;
    let mut parts = parts(random, flags);
    unmark_splice(random, &mut parts);
    let size = parts.len() + random.pick(&[0, 0, 1, 7]);
    told(random, size, parts)
}

/// An extension that has no room for its parts, whatever the splice's markers are.
pub fn short(random: &mut Random) -> Vec<u8> {
    let flags = flags_within(random, WHOLE);
    let mut parts = parts(random, flags);
    if random.one_in(2) {
        unmark_splice(random, &mut parts);
    }
    let size = random.pick(&[0, parts.len() / 2, parts.len() - 1]);
    told(random, size, parts)
}

/// Five bytes of a splice: any type, any stamp and right markers.
pub fn splice(random: &mut Random) -> Vec<u8> {
    let (any, bit) = (random.next() % STAMP_TURN, 1 << random.below(33));
    let value = random.pick(&[0, STAMP_TURN - 1, bit, any, any, any]);
    let mut bytes = vec![0; STAMP_BYTES];
    // The value is below the turn, so the writing is never refused.
    let _ = write_stamp(1, value, &mut bytes);
    bytes[0] = bytes[0] & 0x0F | random.byte() & 0xF0;
    bytes
}

/// Makes one of a stamp's three markers 0, and at times another.
pub fn unmark(random: &mut Random, stamp: &mut [u8]) {
    stamp[random.pick(&[0, 2, 4])] &= 0xFE;
    if random.one_in(5) {
        stamp[random.pick(&[0, 2, 4])] &= 0xFE;
    }
}

/// Any flags whose parts need no more bytes than that, with their reserved bits zeros, ones or mixed.
fn flags_within(random: &mut Random, most: usize) -> u8 {
    let need = |flags: &u8| {
        let parts = [(WINDOW, 2), (RATE, 3), (SPLICE, 5)];
        let flagged = parts.iter().filter(|(flag, _)| flags & flag != 0);
        flagged.fold(1, |sum, (_, size)| sum + size)
    };
    let all = (0..8u8).map(|flags| flags << 5);
    let fitting: Vec<u8> = all.filter(|flags| need(flags) <= most.max(1)).collect();
    let mixed = random.byte() & 0x1F;
    random.pick(&fitting) | random.pick(&[0, 0x1F, mixed])
}

/// The flags byte and what it flags.
fn parts(random: &mut Random, flags: u8) -> Vec<u8> {
    let mut bytes = vec![flags];
    for (flag, size) in [(WINDOW, 2), (RATE, 3)] {
        if flags & flag != 0 {
            bytes.extend(number(random, size));
        }
    }
    if flags & SPLICE != 0 {
        bytes.extend(splice(random));
    }
    bytes
}

/// A window or a rate: any bytes, or the least or the highest value behind one or two first bits, set or not.
fn number(random: &mut Random, size: usize) -> Vec<u8> {
    if random.one_in(2) {
        return random.bytes(size);
    }
    let (first, rest) = random.pick(&[
        (0x00, 0x00),
        (0x3F, 0xFF),
        (0x7F, 0xFF),
        (0x80, 0x00),
        (0xC0, 0x00),
        (0xFF, 0xFF),
    ]);
    let mut bytes = vec![rest; size];
    bytes[0] = first;
    bytes
}

/// Spoils the splice, which comes last, where it is flagged.
fn unmark_splice(random: &mut Random, parts: &mut [u8]) {
    if parts[0] & SPLICE != 0 {
        let start = parts.len() - STAMP_BYTES;
        unmark(random, &mut parts[start..]);
    }
}

/// The bytes behind a length byte that tells the size, with more bytes up to it where they are fewer.
fn told(random: &mut Random, size: usize, mut bytes: Vec<u8>) -> Vec<u8> {
    let more = size.saturating_sub(bytes.len());
    bytes.extend(random.bytes(more));
    bytes.insert(0, size as u8);
    bytes
}
