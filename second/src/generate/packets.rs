//! Packets as generators put them together.

use super::extensions::{extension, short, unmarked};
use super::payloads::{payload_room, pointed, PAYLOAD_BYTES};
use super::random::Random;
use crate::numbers_of_the_house::{PACKET_BYTES, STAMP_TURN};
use crate::time::write_clock;

/// The fields of a packet's header, before anything is damaged.
#[derive(Clone, Copy)]
pub struct Head {
    pub pid: u16,
    pub unit_start: bool,
    pub counter: u8,
    pub scrambling: u8,
    pub priority: bool,
}

impl Head {
    pub fn new(pid: u16, unit_start: bool, counter: u8) -> Head {
        Head {
            pid,
            unit_start,
            counter,
            scrambling: 0,
            priority: false,
        }
    }

    fn bytes(&self, control: u8) -> Vec<u8> {
        let marks = u8::from(self.unit_start) * 0x40 + u8::from(self.priority) * 0x20;
        vec![
            0x47,
            marks + (self.pid >> 8) as u8 % 32,
            self.pid as u8,
            self.scrambling * 64 + control * 16 + self.counter % 16,
        ]
    }
}

/// A packet around a payload of 0 to 184 bytes, filled up by an adaptation field.
pub fn packet_around(random: &mut Random, head: Head, payload: &[u8]) -> Vec<u8> {
    let size = payload.len().min(PAYLOAD_BYTES);
    let control = match size {
        PAYLOAD_BYTES => 1,
        0 => 2,
        _ => 3,
    };
    let mut packet = head.bytes(control);
    if control != 1 {
        packet.extend(adaptation(random, 183 - size));
    }
    packet.extend(&payload[..size]);
    packet
}

/// The counter behind the last one, or a repeat, or a jump.
pub fn counter_after(random: &mut Random, counter: u8) -> u8 {
    match random.below(12) {
        0 => counter,
        1 => counter + 2,
        2 => counter + random.below(16) as u8,
        _ => counter + 1,
    }
}

/// A packet of the PID with any content, after one with the counter.
pub fn any_packet(random: &mut Random, pid: u16, counter: u8) -> Vec<u8> {
    let counter = counter_after(random, counter);
    packet_with(random, pid, counter)
}

/// A packet of the PID with that counter and any content.
pub fn packet_with(random: &mut Random, pid: u16, counter: u8) -> Vec<u8> {
    if random.one_in(20) {
        let head = Head::new(pid, random.one_in(2), counter);
        return packet_around(random, head, &[]);
    }
    let room = payload_room(random);
    let unit_start = random.below(3) > 0;
    let payload = if unit_start {
        let old = random.below(40);
        let continuation = random.bytes(old);
        pointed(random, room, &continuation)
    } else {
        random.bytes(room)
    };
    let mut head = Head::new(pid, unit_start, counter);
    head.priority = random.one_in(8);
    if random.one_in(20) {
        head.scrambling = random.between(1, 3) as u8;
    }
    packet_around(random, head, &payload)
}

/// An adaptation field that fits, its length byte first.
pub fn adaptation(random: &mut Random, length: usize) -> Vec<u8> {
    let mut field = vec![length as u8];
    if length == 0 {
        return field;
    }
    let mut flags = random.pick(&[0, 0, 0, 0x10, 0x80, 0x40, 0x20]);
    if random.one_in(3) {
        flags = random.byte();
    }
    let mut parts = vec![0];
    for bit in (0..5).rev() {
        let part = adaptation_part(random, bit, length - parts.len());
        let flagged = flags >> bit & 1 == 1;
        if flagged && parts.len() + part.len() <= length {
            parts.extend(part);
        } else {
            flags &= !(1 << bit);
        }
    }
    parts[0] = flags;
    let stuffing = if random.one_in(4) {
        random.byte()
    } else {
        0xFF
    };
    parts.resize(length, stuffing);
    field.extend(parts);
    field
}

/// The bytes of one optional part, by its flag's bit.
fn adaptation_part(random: &mut Random, bit: u32, room: usize) -> Vec<u8> {
    match bit {
        3 | 4 => clock_bytes(random, 299),
        2 => vec![random.byte()],
        0 => extension(random, room),
        _ => {
            let most = room.saturating_sub(1);
            let size = random.below(most.min(12) + 1);
            let size = if random.one_in(8) { most } else { size };
            let mut part = vec![size as u8];
            part.extend(random.bytes(size));
            part
        }
    }
}

/// A clock reference with an extension up to the highest one, its reserved bits as they come.
pub fn clock_bytes(random: &mut Random, highest: usize) -> Vec<u8> {
    let mut bytes = vec![0; 6];
    let base = random.next() % STAMP_TURN;
    // The value is below the turn, so the writing is never refused.
    let _ = write_clock(base * 300, &mut bytes);
    let extension = match random.below(3) {
        0 => highest,
        _ => random.below(highest + 1),
    };
    bytes[4] = bytes[4] & 0x80 | random.byte() & 0x7E | (extension >> 8) as u8;
    bytes[5] = extension as u8;
    bytes
}

/// The faults of a packet itself, put on in this order so that none undoes another.
pub const FAULTS: [usize; 8] = [10, 8, 36, 7, 6, 5, 4, 2];

/// Spoils a whole packet in some way.
pub fn spoil_somehow(random: &mut Random, packet: &mut Vec<u8>) {
    let fault = random.pick(&FAULTS);
    spoil(random, packet, fault);
}

/// One of the ways in which a whole packet is spoilt, each with its refusal.
pub fn spoil(random: &mut Random, packet: &mut Vec<u8>, fault: usize) {
    packet.resize(PACKET_BYTES, 0xFF);
    match fault {
        2 => packet.resize(random.pick(&[0, 1, 3, 4, 187, 189, 376]), 0x47),
        4 => packet[0] = random.pick(&[0x46, 0x00, 0xC7, 0xFF, 0x74]),
        5 => packet[1] |= 0x80,
        6 => packet[3] &= 0xCF,
        7 => spoil_adaptation(random, packet),
        8 => {
            packet[3] |= 0x30;
            let original = random.one_in(2);
            let field = if original { 0x08 } else { 0x10 };
            let mut part = vec![random.pick(&[7, 8, 100, 182]), field];
            part.extend(bad_clock(random));
            packet.splice(4..12, part);
        }
        36 => {
            let extension = unmarked(random);
            extend(random, packet, &extension);
        }
        _ => packet[3] |= random.pick(&[0x40, 0x80, 0xC0]),
    }
}

fn bad_clock(random: &mut Random) -> Vec<u8> {
    let mut bytes = random.bytes(6);
    let extension = random.pick(&[300, 301, 400, 511]);
    bytes[4] = bytes[4] & 0xFE | (extension >> 8) as u8;
    bytes[5] = extension as u8;
    bytes
}

/// Puts an extension into the field, behind its clock references and instead of all else.
fn extend(random: &mut Random, packet: &mut [u8], extension: &[u8]) {
    let flagged = packet[3] & 0x20 != 0 && packet[4] > 0;
    let clocks = if flagged { packet[5] & 0x18 } else { 0 };
    let start = 6 + 6 * clocks.count_ones() as usize;
    let end = start + extension.len();
    packet[start..end].copy_from_slice(extension);
    packet[5] = clocks | 0x01;
    packet[3] |= 0x20;
    let without_payload = packet[3] & 0x10 == 0;
    let length = random.pick(&[end - 5, end - 5, end - 4, 100, 182]);
    packet[4] = if without_payload { 183 } else { length as u8 };
}

fn spoil_adaptation(random: &mut Random, packet: &mut [u8]) {
    if random.one_in(4) {
        let extension = short(random);
        return extend(random, packet, &extension);
    }
    let control = random.pick(&[0x20, 0x30]);
    packet[3] = packet[3] & 0xCF | control;
    let lengths: [u8; 5] = if control == 0x20 {
        [182, 184, 0, 255, 1]
    } else {
        [183, 184, 200, 255, 183]
    };
    packet[4] = random.pick(&lengths);
    if random.one_in(3) {
        packet[3] |= 0x30;
        packet[4] = random.pick(&[1, 5, 6]);
        packet[5] = 0x10;
    }
}
