//! Packets read alone, and PIDs made.

use super::extensions::{edge, extension};
use super::packets::{adaptation, clock_bytes, packet_around, spoil, Head, FAULTS};
use super::random::Random;
use super::script::Script;

pub fn generate(random: &mut Random, script: &mut Script) {
    let packet = match random.below(10) {
        0 => random_packet(random),
        1 => damaged(random),
        2 | 3 => whole(random),
        4 => ending(random),
        _ => flagged(random),
    };
    script.call_with("alone", &packet);
    let pid = match random.below(8) {
        0 => random.pick(&[0, 1, 0x1FFE, 0x1FFF, 0x2000, 0xFFFF]),
        1..=4 => random.below(0x2000),
        _ => random.below(0x10000),
    };
    script.call(&format!("pid {}", pid));
}

fn head(random: &mut Random) -> Head {
    let pid = random.below(0x2000) as u16;
    let mut head = Head::new(pid, random.one_in(2), random.byte() % 16);
    head.priority = random.one_in(2);
    if random.one_in(4) {
        head.scrambling = random.byte() % 4;
    }
    head
}

fn whole(random: &mut Random) -> Vec<u8> {
    let size = match random.below(4) {
        0 => random.below(185),
        1 => random.pick(&[0, 1, 182, 183]),
        _ => 184,
    };
    let payload = random.bytes(size);
    let head = head(random);
    packet_around(random, head, &payload)
}

fn random_packet(random: &mut Random) -> Vec<u8> {
    let size = random.pick(&[0, 1, 4, 5, 187, 188, 188, 188, 189, 204]);
    let mut packet = random.bytes(size);
    if let Some(first) = packet.first_mut() {
        *first = 0x47;
    }
    packet
}

fn damaged(random: &mut Random) -> Vec<u8> {
    let mut packet = whole(random);
    for fault in FAULTS {
        if random.one_in(4) {
            spoil(random, &mut packet, fault);
        }
    }
    if random.one_in(2) && !packet.is_empty() {
        let at = random.below(packet.len());
        packet[at] ^= 1 << random.below(8);
    }
    packet
}

/// Any flags, with a length at, just below or above what the parts need.
fn flagged(random: &mut Random) -> Vec<u8> {
    let flags = random.byte();
    let mut parts = vec![flags];
    for bit in (0..5).rev() {
        if flags >> bit & 1 == 1 {
            parts.extend(part(random, bit));
        }
    }
    let exact = parts.len();
    let without_payload = random.one_in(5);
    let length = match random.below(8) {
        _ if without_payload => random.pick(&[183, 183, 183, 183, 182, 184]),
        0 => exact - 1,
        1 => exact + 1,
        2 => random.below(256),
        3 => random.pick(&[0, 1, 181, 182, 183]),
        4 => random.between(exact, 182.max(exact)),
        _ => exact,
    };
    around(random, without_payload, length, &parts)
}

/// An extension near the field's end, behind private data: its parts, its flags byte or its length byte come last or lie outside.
fn ending(random: &mut Random) -> Vec<u8> {
    let without_payload = random.one_in(2);
    let length = if without_payload {
        183
    } else {
        random.between(14, 182)
    };
    let room = random.below(13);
    let mut extension = if random.one_in(2) {
        extension(random, room)
    } else {
        edge(random)
    };
    match extension.get_mut(1) {
        Some(flags) if random.one_in(3) => *flags ^= 0x20 << random.below(3),
        _ => {}
    }
    let private = length - 2 - room;
    let mut parts = vec![0x03, private as u8];
    parts.extend(random.bytes(private));
    parts.extend(extension);
    around(random, without_payload, length, &parts)
}

/// A packet with the length byte and the bytes behind it, and noise up to its end.
fn around(random: &mut Random, without_payload: bool, length: usize, parts: &[u8]) -> Vec<u8> {
    let mut head = head(random);
    head.scrambling %= 2;
    let mut packet = packet_around(random, head, &[]);
    packet[3] |= if without_payload { 0x20 } else { 0x30 };
    packet[4] = length.min(255) as u8;
    let noise = random.bytes(183);
    packet.splice(5.., noise);
    for (place, byte) in packet[5..].iter_mut().zip(parts) {
        *place = *byte;
    }
    packet
}

fn part(random: &mut Random, bit: u32) -> Vec<u8> {
    match bit {
        3 | 4 => {
            let highest = random.pick(&[299, 299, 299, 299, 300, 511]);
            clock_bytes(random, highest)
        }
        2 => vec![random.pick(&[0, 1, 0x7F, 0x80, 0xFF])],
        0 => edge(random),
        _ if random.one_in(10) => adaptation(random, 170),
        _ => {
            let size = random.pick(&[0, 0, 1, 2, 30, 80]);
            let mut part = vec![size as u8];
            part.extend(random.bytes(size));
            part
        }
    }
}
