//! Counters that stand still, on areas taken anew and on records with or without the mark of a repeat.

use super::super::choices::choice;
use super::super::packets::{counter_after, packet_around, packet_with, spoil_somehow, Head};
use super::super::payloads::payload_room;
use super::super::random::Random;
use super::super::script::Script;
use super::states::{filter_pid, held_count, hold_rightly, one_pid};
use super::streams::interleaved;

/// Bursts on a PID among those on another; at times the PID's filter is closed and opened in between.
pub fn bursts(random: &mut Random, script: &mut Script) {
    let (other, pid) = (filter_pid(random), filter_pid(random));
    let mut counter = random.below(16) as u8;
    let mut number = 2;
    script.set_up("fresh");
    script.open(other, choice(random));
    script.open(pid, choice(random));
    for _ in 0..random.between(1, 4) {
        let queues = vec![burst(random, pid, counter), burst(random, other, 15)];
        for packet in interleaved(random, queues) {
            script.packet(&packet);
        }
        if random.one_in(4) {
            script.call(&format!("close {}", number));
            script.open(pid, choice(random));
            number += 1;
        }
        counter = counter_after(random, counter) % 16;
    }
}

/// A record with or without the mark, met by a burst with its counter, the next or another.
pub fn marked(random: &mut Random, script: &mut Script) {
    let pid = filter_pid(random);
    let counter = random.below(16) as u8;
    let held = held_count(random);
    let (state, _) = one_pid(random, pid, held, counter);
    script.state(&state);
    hold_rightly(random, script, &state);
    let met = counter + random.pick(&[0, 0, 0, 1, 2, 8, 15]);
    for packet in burst(random, pid, met) {
        script.packet(&packet);
    }
}

/// 2 to 7 packets with one counter.
fn burst(random: &mut Random, pid: u16, counter: u8) -> Vec<Vec<u8>> {
    (0..random.between(2, 7))
        .map(|_| standing(random, pid, counter))
        .collect()
}

/// Any content, and more often than elsewhere no payload or something to refuse.
fn standing(random: &mut Random, pid: u16, counter: u8) -> Vec<u8> {
    match random.below(8) {
        0 => {
            let head = Head::new(pid, random.one_in(2), counter);
            packet_around(random, head, &[])
        }
        1 => pointing_past(random, pid, counter),
        2 => {
            let mut packet = packet_with(random, pid, counter);
            spoil_somehow(random, &mut packet);
            packet
        }
        _ => packet_with(random, pid, counter),
    }
}

/// A packet whose pointer leaves no byte for a section.
fn pointing_past(random: &mut Random, pid: u16, counter: u8) -> Vec<u8> {
    let room = payload_room(random);
    let mut payload = random.bytes(room);
    payload[0] = random.between(room - 1, 255) as u8;
    packet_around(random, Head::new(pid, true, counter), &payload)
}
