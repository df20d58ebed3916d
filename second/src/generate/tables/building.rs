//! Right sections, with notes on where their lengths stand.

use super::super::random::Random;
use crate::tables::cyclic_register;

/// A section, how many descriptors each of its entries has, and the places of its lengths.
#[derive(Default)]
pub struct Built {
    pub bytes: Vec<u8>,
    pub entries: Vec<usize>,
    pub outer: usize,
    pub loop_lengths: Vec<usize>,
    pub descriptor_lengths: Vec<usize>,
}

/// Sets the section's own length and its last four bytes.
pub fn seal_length(bytes: &mut Vec<u8>) {
    let length = bytes.len().saturating_sub(3);
    bytes[1] = bytes[1] & 0xF0 | (length >> 8) as u8 & 0x0F;
    bytes[2] = length as u8;
    seal(bytes);
}

/// Makes the register end at zero, where there are four bytes to do so.
pub fn seal(bytes: &mut Vec<u8>) {
    if bytes.len() >= 4 {
        bytes.truncate(bytes.len() - 4);
        let register = cyclic_register(bytes);
        bytes.extend(register.to_be_bytes());
    }
}

/// Bytes 0 to 7, the length still open.
fn common(random: &mut Random, table: u8) -> Vec<u8> {
    let mut bytes = vec![table, 0x80 | random.byte() & 0x30, 0];
    bytes.extend(random.bytes(3));
    if table == 0 {
        let last = random.pick(&[0, 0, 1, 255]);
        bytes.push(random.between(0, last) as u8);
        bytes.push(last as u8);
    } else {
        bytes.extend([0, 0]);
    }
    bytes
}

pub fn program_table(random: &mut Random) -> Built {
    let count = match random.below(200) {
        0 => 253,
        1 => 252,
        2..=5 => random.below(60),
        _ => random.below(6),
    };
    let mut built = Built {
        bytes: common(random, 0),
        entries: vec![0; count],
        ..Built::default()
    };
    built.bytes.extend(random.bytes(4 * count + 4));
    seal_length(&mut built.bytes);
    built
}

pub fn stream_table(random: &mut Random) -> Built {
    let mut built = Built {
        bytes: common(random, 2),
        ..Built::default()
    };
    built.bytes.extend(random.bytes(2));
    built.outer = descriptor_loop(random, &mut built, 3);
    let (count, most) = match random.below(200) {
        0 | 1 if built.outer == 0 => (201, 0),
        0..=2 => (20, 4),
        3..=6 => (random.below(20), 1),
        _ => (random.below(5), 2),
    };
    for _ in 0..count {
        let room = 1_020 - built.bytes.len();
        if room >= 5 {
            built.bytes.extend(random.bytes(3));
            let descriptors = descriptor_loop(random, &mut built, most);
            built.entries.push(descriptors);
        }
    }
    built.bytes.extend([0; 4]);
    seal_length(&mut built.bytes);
    built
}

/// A length field and descriptors behind it, as far as the section has room.
fn descriptor_loop(random: &mut Random, built: &mut Built, most: usize) -> usize {
    let place = built.bytes.len();
    built.loop_lengths.push(place);
    built.bytes.extend([0, 0]);
    let mut count = 0;
    for _ in 0..random.between(0, most) {
        let size = match random.below(60) {
            0 => 255,
            1..=10 => 0,
            _ => random.below(8),
        };
        if built.bytes.len() + 2 + size > 1_000 {
            break;
        }
        built.bytes.push(random.byte());
        built.descriptor_lengths.push(built.bytes.len());
        built.bytes.push(size as u8);
        built.bytes.extend(random.bytes(size));
        count += 1;
    }
    let length = built.bytes.len() - place - 2;
    built.bytes[place] = random.byte() & 0xF0 | (length >> 8) as u8;
    built.bytes[place + 1] = length as u8;
    count
}
