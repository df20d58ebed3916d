//! Stamps and clock references, read, written and taken apart.

use super::extensions::{splice, unmark};
use super::packets::clock_bytes;
use super::random::Random;
use super::script::{field, Script};
use crate::numbers_of_the_house::{CLOCK_TURN, STAMP_TURN};
use crate::time::write_stamp;

/// One line of each word, and of each difference the four of a triple.
pub fn generate(random: &mut Random, script: &mut Script) {
    let prefix = prefix(random);
    let stamp = stamp_bytes(random, prefix);
    script.call_with(&format!("stamp {}", prefix), &stamp);
    let any = any_stamp(random);
    script.call_with("anystamp", &any);
    let value = stamp_value(random);
    let lent = lent(random);
    script.call(&format!("setstamp {} {} {}", prefix, value, field(&lent)));
    let highest = random.pick(&[299, 299, 299, 300, 511]);
    let mut clock = clock_bytes(random, highest);
    clock.extend(random.bytes(4));
    clock.truncate(size(random, 6));
    script.call_with("clock", &clock);
    let value = clock_value(random);
    script.call_with(&format!("setclock {}", value), &lent);
    let stamps = triple(random, stamp_value, STAMP_TURN);
    differences(script, "apart", stamps);
    let clocks = triple(random, clock_value, CLOCK_TURN);
    differences(script, "forward", clocks);
}

/// Three values, each of the later two anywhere or near the one before it.
fn triple(random: &mut Random, value: fn(&mut Random) -> u64, turn: u64) -> [u64; 3] {
    let first = value(random);
    let second = near(random, first, value, turn);
    let third = near(random, second, value, turn);
    [first, second, third]
}

/// From the first to the second, from that to the third, both in one, and the first two exchanged.
fn differences(script: &mut Script, word: &str, [a, b, c]: [u64; 3]) {
    for (to, from) in [(b, a), (c, b), (c, a), (a, b)] {
        script.call(&format!("{} {} {}", word, to, from));
    }
}

fn prefix(random: &mut Random) -> u64 {
    match random.below(8) {
        0 => random.pick(&[0, 4, 15, 16, 18, 255]),
        _ => random.between(1, 3) as u64,
    }
}

/// Mostly enough bytes, and some too few or more than enough.
fn size(random: &mut Random, enough: usize) -> usize {
    match random.below(8) {
        0 => random.below(11),
        1 => enough - 1,
        2 => enough + 1,
        _ => enough,
    }
}

fn lent(random: &mut Random) -> Vec<u8> {
    let size = match random.below(3) {
        0 => random.below(11),
        _ => random.between(5, 7),
    };
    let same = random.pick(&[0x00, 0xFF]);
    if random.one_in(2) {
        vec![same; size]
    } else {
        random.bytes(size)
    }
}

fn stamp_bytes(random: &mut Random, prefix: u64) -> Vec<u8> {
    let mut bytes = random.bytes(10);
    if random.one_in(10) {
        return bytes;
    }
    let written = if random.one_in(8) {
        random.between(1, 3) as u64
    } else {
        prefix
    };
    let value = random.next() % STAMP_TURN;
    // A prefix that is refused leaves the bytes as they come.
    let _ = write_stamp(written, value, &mut bytes);
    match random.below(8) {
        0 => bytes[random.pick(&[0, 2, 4])] ^= 1,
        1 => bytes[random.below(5)] ^= 1 << random.below(8),
        2 => bytes[0] ^= 0x10 << random.below(4),
        _ => {}
    }
    bytes.truncate(size(random, 5));
    bytes
}

/// A stamp behind any four bits, at times without a marker, with bytes missing or with more behind it.
fn any_stamp(random: &mut Random) -> Vec<u8> {
    let mut bytes = splice(random);
    if random.one_in(4) {
        unmark(random, &mut bytes);
    }
    bytes.extend(random.bytes(5));
    bytes.truncate(size(random, 5));
    bytes
}

fn stamp_value(random: &mut Random) -> u64 {
    let half = STAMP_TURN / 2;
    match random.below(8) {
        0 => random.pick(&[0, 1, half - 1, half, half + 1, STAMP_TURN - 1]),
        1 => random.pick(&[STAMP_TURN, STAMP_TURN + 1, CLOCK_TURN, 1 << 63, u64::MAX]),
        2 => random.next() % 90_001,
        3 => 1 << random.below(34),
        _ => random.next() % STAMP_TURN,
    }
}

fn clock_value(random: &mut Random) -> u64 {
    match random.below(8) {
        0 => random.pick(&[0, 1, 299, 300, CLOCK_TURN - 1, CLOCK_TURN - 300]),
        1 => random.pick(&[CLOCK_TURN, CLOCK_TURN + 1, 1 << 63, u64::MAX]),
        2 => random.next() % 27_000_001,
        3 => 1 << random.below(43),
        _ => random.next() % CLOCK_TURN,
    }
}

/// A value, or one close to the first or half a turn away from it.
fn near(random: &mut Random, first: u64, value: fn(&mut Random) -> u64, turn: u64) -> u64 {
    let step = random.below(3) as u64;
    match random.below(6) {
        0 => first.saturating_add(step),
        1 => first.saturating_sub(step),
        2 => first.wrapping_add(turn / 2 + step) % turn,
        _ => value(random),
    }
}
