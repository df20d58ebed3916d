//! Packets with one fault or several, so that the order of refusals is seen.

use super::super::choices::choice;
use super::super::packets::{any_packet, spoil, FAULTS};
use super::super::random::Random;
use super::super::script::Script;
use super::states::filter_pid;
use crate::numbers_of_the_house::{LEAST_LIST_PLACES, LEAST_OUTPUT_BYTES, STORE_BYTES};

pub fn fault(random: &mut Random, script: &mut Script) {
    let pid = filter_pid(random);
    script.set_up("fresh");
    if !random.one_in(6) {
        script.open(pid, choice(random));
    }
    for counter in 0..random.between(3, 8) {
        let met = if random.one_in(6) {
            filter_pid(random)
        } else {
            pid
        };
        let mut packet = any_packet(random, met, counter as u8);
        let first = random.below(FAULTS.len() + 2);
        let mut faults: Vec<usize> = FAULTS.get(first).copied().into_iter().collect();
        while random.one_in(4) {
            faults.push(random.pick(&FAULTS));
        }
        for fault in FAULTS {
            if faults.contains(&fault) {
                spoil(random, &mut packet, fault);
            }
        }
        if random.one_in(12) {
            flip(random, &mut packet);
        }
        let lent = lent(random);
        script.packet_lent(lent, &packet);
    }
    if random.one_in(2) {
        script.call(&format!("close {}", random.between(0, 2)));
    }
}

/// Turns one bit of the header or the adaptation field's first bytes.
fn flip(random: &mut Random, packet: &mut [u8]) {
    let at = random.below(packet.len().min(8));
    if let Some(byte) = packet.get_mut(at) {
        *byte ^= 1 << random.below(8);
    }
}

/// The sizes of the lent store, output and list, mostly right ones.
fn lent(random: &mut Random) -> [usize; 3] {
    let store = match random.below(8) {
        0 => random.pick(&[0, 1, 4_096, 32_767, 32_769, 40_960]),
        _ => STORE_BYTES,
    };
    let output = match random.below(8) {
        0 => random.pick(&[0, 1, 4_096, 4_277]),
        1 => random.pick(&[4_279, 8_191]),
        2..=4 => 8_192,
        _ => LEAST_OUTPUT_BYTES,
    };
    let list = match random.below(12) {
        0 => random.pick(&[0, 1, 60, 60]),
        1..=4 => LEAST_LIST_PLACES,
        _ => random.pick(&[62, 128, 128]),
    };
    [store, output, list]
}
