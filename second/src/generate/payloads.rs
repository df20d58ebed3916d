//! Payloads that carry sections, whole, in parts or wrong.

use super::random::Random;
use super::sections::{section, section_head};

pub const PAYLOAD_BYTES: usize = 184;

/// Payload sizes, mostly the whole one.
pub fn payload_room(random: &mut Random) -> usize {
    match random.below(10) {
        0 => random.between(1, PAYLOAD_BYTES),
        1 => random.between(1, 6),
        2 => random.between(180, 183),
        _ => PAYLOAD_BYTES,
    }
}

/// Exactly that many bytes from a place where a table_id should stand.
fn sections_filling(random: &mut Random, room: usize) -> Vec<u8> {
    if random.one_in(8) {
        return shortest_filling(random, room);
    }
    let style = random.below(9);
    let mut bytes = Vec::new();
    let most = random.pick(&[0, 1, 2, 5, 61]);
    for _ in 0..most {
        let left = room - bytes.len();
        let size = match style {
            0 => 3,
            _ => random.pick(&[3, 4, 5, 9, 20, 60]),
        };
        if size + 3 > left {
            break;
        }
        bytes.extend(section(random, size));
    }
    let left = room - bytes.len();
    bytes.extend(ending(random, style, left));
    bytes.truncate(room);
    while bytes.len() < room {
        bytes.push(random.byte());
    }
    bytes
}

/// Sections of three bytes, as many as can begin, of which the last may be whole, a part, too long or none.
fn shortest_filling(random: &mut Random, room: usize) -> Vec<u8> {
    let mut bytes = Vec::new();
    while bytes.len() + 3 < room {
        bytes.extend(section(random, 3));
    }
    let length = random.pick(&[0, 0, 1, 2, 4_093, 4_094, 4_095]);
    let mut end = section_head(random, length);
    if random.one_in(5) {
        end[0] = 0xFF;
    }
    let left = room - bytes.len();
    bytes.extend(&end[..left]);
    bytes
}

/// The last thing in a payload, cut or filled up by the caller.
fn ending(random: &mut Random, style: usize, left: usize) -> Vec<u8> {
    match style {
        0 if left % 3 == 0 => (0..left / 3).flat_map(|_| section(random, 3)).collect(),
        0 | 1 => section(random, left.max(3)),
        2 => vec![0xFF; left],
        3 => vec![0xFF],
        4 => {
            let length = random.pick(&[4_094, 4_095]);
            section_head(random, length).to_vec()
        }
        5 => section_head(random, 4_093).to_vec(),
        6 => {
            let gap = random.between(1, 2).min(left);
            let mut bytes = section(random, (left - gap).max(3));
            let length = random.pick(&[0, 1, 200, 4_093, 4_094]);
            bytes.extend(section_head(random, length));
            bytes
        }
        7 => {
            let more = random.pick(&[1, 2, 184, 185]);
            section(random, left.max(2) + more)
        }
        _ => random.bytes(left),
    }
}

/// A payload with a pointer, at and around the given place of the held section's end.
pub fn pointed(random: &mut Random, room: usize, continuation: &[u8]) -> Vec<u8> {
    let end = continuation.len();
    let pointer = match random.below(8) {
        0 => 0,
        1 => end.saturating_sub(1),
        2 => end + 1,
        3 => random.between(room.saturating_sub(3), room),
        4 => random.below(186),
        _ => end,
    };
    let pointer = pointer.min(255);
    let mut payload = vec![pointer as u8];
    payload.extend(continuation.iter().take(pointer));
    while payload.len() < room.min(pointer + 1) {
        payload.push(random.byte());
    }
    let left = room.saturating_sub(payload.len());
    payload.extend(sections_filling(random, left));
    payload.truncate(room);
    payload
}

/// A payload with its unit start mark.
pub struct Load {
    pub unit_start: bool,
    pub payload: Vec<u8>,
}

/// Payloads that carry the sections joined, each start told by a pointer.
pub fn loads(random: &mut Random, sections: &[Vec<u8>]) -> Vec<Load> {
    let joined = sections.concat();
    let mut starts = vec![0];
    for section in sections {
        starts.push(starts[starts.len() - 1] + section.len());
    }
    starts.pop();
    let mut loads = Vec::new();
    let mut at = 0;
    while at < joined.len() {
        let room = room(random);
        let start = starts.iter().copied().find(|start| *start >= at);
        let pointed = start.filter(|start| *start + 1 < at + room);
        let mut payload: Vec<u8> = pointed
            .map(|start| (start - at) as u8)
            .into_iter()
            .collect();
        let mut end = (at + room - payload.len()).min(joined.len());
        if pointed.is_none() && start.map_or(false, |start| start < end) {
            end -= 1;
        }
        payload.extend(&joined[at..end]);
        if end == joined.len() && random.one_in(2) {
            payload.resize(room.max(payload.len()), 0xFF);
        }
        at = end;
        let unit_start = pointed.is_some();
        loads.push(Load {
            unit_start,
            payload,
        });
    }
    loads
}

/// How many bytes a payload may have: mostly all, and never so few that nothing moves on.
fn room(random: &mut Random) -> usize {
    match random.below(12) {
        0 => random.between(2, PAYLOAD_BYTES),
        1 => random.between(175, PAYLOAD_BYTES),
        _ => PAYLOAD_BYTES,
    }
}
