//! Sections spoilt so that a chosen refusal, or one before it, is due.

use super::super::random::Random;
use super::building::{seal, seal_length, Built};

/// The refusals in the order in which their faults are put on.
const FAULTS: [u32; 7] = [26, 24, 25, 21, 23, 22, 20];

pub fn spoilt(random: &mut Random, mut built: Built) -> Built {
    if random.one_in(2) {
        return built;
    }
    let mut faults = vec![random.pick(&FAULTS)];
    while random.one_in(5) {
        faults.push(random.pick(&FAULTS));
    }
    for fault in FAULTS {
        if faults.contains(&fault) {
            spoil(random, &mut built, fault);
        }
    }
    built
}

fn spoil(random: &mut Random, built: &mut Built, fault: u32) {
    let bytes = &mut built.bytes;
    match fault {
        20 => spoil_size(random, bytes),
        21 => bytes[1] ^= random.pick(&[0x40, 0x80, 0xC0]),
        22 => {
            let at = random.below(bytes.len());
            bytes[at] ^= 1 << random.below(8);
        }
        23 => bytes[0] = random.pick(&[0, 1, 2, 3, 0x42, 0x80, 0xFF]),
        24 => {
            let mut last = random.byte();
            if random.one_in(3) {
                last = 0;
            }
            if bytes.len() > 11 {
                bytes[7] = last;
                bytes[6] = random.pick(&[0, 1, last.saturating_add(1), last, 255]);
            }
        }
        25 => spoil_length(random, bytes),
        _ => spoil_inside(random, built),
    }
    if matches!(fault, 21 | 23 | 24) && built.bytes.len() > 6 {
        seal(&mut built.bytes);
    }
}

/// Another size than the length tells, or a length that no section has.
fn spoil_size(random: &mut Random, bytes: &mut Vec<u8>) {
    let size = bytes.len();
    match random.below(5) {
        0 => bytes.truncate(size - 1),
        1 => bytes.push(random.byte()),
        2 => bytes.truncate(random.below(4)),
        3 => {
            bytes[1] |= 0x0F;
            bytes[2] = random.pick(&[0xFE, 0xFF]);
        }
        _ => bytes[2] ^= 1 << random.below(8),
    }
}

/// A section too short for its table or, more seldom, too long.
fn spoil_length(random: &mut Random, bytes: &mut Vec<u8>) {
    let size = match random.below(24) {
        0 if random.one_in(3) => random.pick(&[4_096, 4_096, 4_097, 4_098]),
        0 => random.pick(&[1_025, 1_026, 1_040]),
        1 => 1_024,
        2..=6 => random.between(3, 7),
        7..=12 => random.pick(&[10, 11, 12]),
        _ => random.between(7, 17),
    };
    bytes.resize(size, 0);
    if size > 6 {
        seal_length(bytes);
    } else {
        bytes[1] &= 0xF0;
        bytes[2] = size as u8 - 3;
    }
}

/// A length inside the section, or the loop's end, moved a little.
fn spoil_inside(random: &mut Random, built: &mut Built) {
    let size = built.bytes.len();
    let step = random.pick(&[1, 1, 2, 3, 5, 255, 254]);
    match random.below(5) {
        0 if !built.loop_lengths.is_empty() => {
            let place = random.pick(&built.loop_lengths);
            built.bytes[place] ^= random.pick(&[0x04, 0x08, 0x0C, 0x01]);
        }
        1 if !built.loop_lengths.is_empty() => {
            let place = random.pick(&built.loop_lengths) + 1;
            built.bytes[place] = built.bytes[place].wrapping_add(step);
        }
        2 if !built.descriptor_lengths.is_empty() => {
            let place = random.pick(&built.descriptor_lengths);
            built.bytes[place] = built.bytes[place].wrapping_add(step);
        }
        3 if size > 17 => built.bytes.truncate(size - random.between(1, 5)),
        _ => {
            let more = random.between(1, 6);
            built.bytes.extend(random.bytes(more));
        }
    }
    seal_length(&mut built.bytes);
}
