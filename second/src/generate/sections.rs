//! Sections as generators put them together.

use super::random::Random;

/// The table_ids of most sections, so few that the choices of filters meet them.
const TABLES: [u8; 4] = [0, 66, 78, 254];

/// A table_id that a section can start with.
pub fn table_id(random: &mut Random) -> u8 {
    match random.below(4) {
        0 => random.below(255) as u8,
        _ => random.pick(&TABLES),
    }
}

/// The three first bytes of a section.
pub fn section_head(random: &mut Random, length: usize) -> [u8; 3] {
    let table = table_id(random);
    let reserved = random.byte() & 0xF0;
    [table, reserved | (length >> 8) as u8, length as u8]
}

/// A section of the size, from 3 bytes on.
pub fn section(random: &mut Random, size: usize) -> Vec<u8> {
    let length = size.saturating_sub(3);
    let mut bytes = section_head(random, length).to_vec();
    bytes.extend(random.bytes(length));
    bytes
}

/// Mostly small sizes, with the longest and the shortest among them.
pub fn section_size(random: &mut Random) -> usize {
    match random.below(40) {
        0 => 4_096,
        1 => random.between(1_000, 4_096),
        2..=4 => random.between(180, 600),
        5..=9 => random.between(180, 190),
        10..=14 => random.between(3, 5),
        _ => random.between(3, 80),
    }
}
