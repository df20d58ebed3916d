//! Streams of sections on several PIDs, whole or damaged.

use super::super::choices::{choice, named_choice};
use super::super::packets::{any_packet, packet_around, spoil_somehow, Head};
use super::super::payloads::loads;
use super::super::random::Random;
use super::super::script::Script;
use super::super::sections::{section, section_size};
use super::states::filter_pid;

pub fn stream(random: &mut Random, script: &mut Script) {
    let kinds = random.pick(&[1, 2, 3, 8]);
    let pids: Vec<u16> = (0..kinds).map(|_| filter_pid(random)).collect();
    script.set_up("fresh");
    for pid in &pids {
        for _ in 0..random.pick(&[1, 1, 3]) {
            script.open(*pid, choice(random));
        }
    }
    let mut queues = Vec::new();
    for pid in &pids {
        queues.push(packets_of(random, *pid, 60 / kinds));
    }
    let damage = random.pick(&[0, 0, 30, 10, 4]);
    let merged = interleaved(random, queues);
    let packets = damaged(random, merged, damage);
    for packet in packets {
        script.packet(&packet);
        if random.one_in(25) {
            script.open(random.pick(&pids), named_choice(random));
        }
        if random.one_in(25) {
            script.call(&format!("close {}", random.between(1, kinds + 3)));
        }
        if random.one_in(30) {
            let other = filter_pid(random);
            let packet = any_packet(random, other, 0);
            script.packet(&packet);
        }
    }
}

/// A few sections of one PID in packets with counters in step.
fn packets_of(random: &mut Random, pid: u16, most: usize) -> Vec<Vec<u8>> {
    let mut counter = random.below(16) as u8;
    let mut packets = Vec::new();
    for _ in 0..random.between(1, 4) {
        let mut sections = Vec::new();
        for _ in 0..random.between(1, 8) {
            let size = section_size(random);
            sections.push(section(random, size));
        }
        for load in loads(random, &sections) {
            let head = Head::new(pid, load.unit_start, counter);
            packets.push(packet_around(random, head, &load.payload));
            counter = (counter + 1) % 16;
            if random.one_in(20) {
                let head = Head::new(pid, random.one_in(2), random.byte() % 16);
                packets.push(packet_around(random, head, &[]));
            }
        }
    }
    packets.truncate(most.max(8));
    packets
}

/// The queues merged, each in its own order.
pub fn interleaved(random: &mut Random, mut queues: Vec<Vec<Vec<u8>>>) -> Vec<Vec<u8>> {
    let mut merged = Vec::new();
    queues.iter_mut().for_each(|queue| queue.reverse());
    while !queues.is_empty() {
        let index = random.below(queues.len());
        match queues[index].pop() {
            Some(packet) => merged.push(packet),
            None => {
                queues.swap_remove(index);
            }
        }
    }
    merged
}

/// Drops, repeats, swaps and spoils about one packet in so many; with 0 none.
fn damaged(random: &mut Random, packets: Vec<Vec<u8>>, one_in: usize) -> Vec<Vec<u8>> {
    let mut left: Vec<Vec<u8>> = Vec::new();
    for mut packet in packets {
        if one_in == 0 || !random.one_in(one_in) {
            left.push(packet);
            continue;
        }
        match random.below(7) {
            0 => {}
            1 => left.extend(vec![packet; random.between(2, 7)]),
            2 => left.insert(left.len().saturating_sub(1), packet),
            3 => {
                let at = random.below(packet.len());
                packet[at] ^= 1 << random.below(8);
                left.push(packet);
            }
            4 => {
                spoil_somehow(random, &mut packet);
                left.push(packet);
            }
            5 => {
                packet[4] = random.byte();
                left.push(packet);
            }
            _ => {
                let noise = random.bytes(packet.len() - 4);
                packet.splice(4.., noise);
                left.push(packet);
            }
        }
    }
    left
}
