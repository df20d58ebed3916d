//! The places where one section ends, another starts, or a packet ends in between.

use super::super::choices::choice;
use super::super::packets::{any_packet, counter_after, packet_around, Head};
use super::super::payloads::{payload_room, pointed, PAYLOAD_BYTES};
use super::super::random::Random;
use super::super::script::Script;
use super::super::sections::section_head;
use super::states::{filter_pid, held_count, one_pid};
use crate::numbers_of_the_house::AREA_BYTES;

/// A held section of a chosen rest, and packets that end it, miss it or pass it.
pub fn joint(random: &mut Random, script: &mut Script) {
    let pid = filter_pid(random);
    let counter = random.below(16) as u8;
    let held = held_count(random);
    let rest = match random.below(4) {
        0 => random.between(1, 4),
        1 => random.between(178, 190),
        2 => random.between(1, 184),
        _ => random.between(1, 4_096),
    };
    let size = (held + rest).clamp(3, 4_096);
    let overlong = held < 3 && random.one_in(4);
    let length = if overlong {
        random.pick(&[4_094, 4_095])
    } else {
        size - 3
    };
    let head = section_head(random, length);
    let mut continuation = head[held.min(3)..].to_vec();
    continuation.extend(random.bytes(size - held.max(3)));
    let (state, index) = one_pid(random, pid, held, counter);
    script.state(&state);
    script.store(index * AREA_BYTES, &head[..held.min(3)]);
    let packet = joining_packet(random, pid, counter, &continuation);
    script.packet(&packet);
    follow(random, script, pid, packet[3] % 16);
}

fn joining_packet(random: &mut Random, pid: u16, counter: u8, continuation: &[u8]) -> Vec<u8> {
    let room = payload_room(random);
    let unit_start = random.below(3) > 0;
    let payload = if unit_start {
        pointed(random, room, continuation)
    } else {
        let mut payload = continuation.to_vec();
        payload.extend(random.bytes(room));
        payload.truncate(room);
        payload
    };
    let counter = counter_after(random, counter);
    packet_around(random, Head::new(pid, unit_start, counter), &payload)
}

fn follow(random: &mut Random, script: &mut Script, pid: u16, mut counter: u8) {
    for _ in 0..random.below(4) {
        let packet = any_packet(random, pid, counter);
        counter = packet[3] % 16;
        script.packet(&packet);
    }
}

/// The longest section at its last bytes, and headers that straddle two packets.
pub fn longest(random: &mut Random, script: &mut Script) {
    let pid = filter_pid(random);
    script.set_up("fresh");
    script.open(pid, choice(random));
    let counter = random.below(16) as u8;
    let cut = random.between(1, 3);
    let length = random.pick(&[0, 1, 4_092, 4_093, 4_094, 4_095]);
    let head = section_head(random, length);
    let pointer = PAYLOAD_BYTES - 1 - cut;
    let mut payload = vec![pointer as u8];
    payload.extend(random.bytes(pointer));
    payload.extend(&head[..cut]);
    let start = Head::new(pid, true, counter);
    let packet = packet_around(random, start, &payload);
    script.packet(&packet);
    let mut continuation = head[cut..].to_vec();
    continuation.extend(random.bytes(length.min(4_093)));
    if random.one_in(12) {
        let packets = all_of(random, pid, counter, &continuation);
        packets.iter().for_each(|packet| script.packet(packet));
    } else {
        let packet = joining_packet(random, pid, counter, &continuation);
        script.packet(&packet);
        follow(random, script, pid, packet[3] % 16);
    }
}

/// The whole continuation in packets without unit start.
fn all_of(random: &mut Random, pid: u16, counter: u8, continuation: &[u8]) -> Vec<Vec<u8>> {
    let mut packets = Vec::new();
    for (step, piece) in continuation.chunks(PAYLOAD_BYTES).enumerate() {
        let counter = counter + 1 + (step % 16) as u8;
        let head = Head::new(pid, false, counter);
        packets.push(packet_around(random, head, piece));
    }
    packets
}
