//! Held bytes that contradict their record in each way, or just do not.

use super::super::choices::named_choice;
use super::super::packets::{any_packet, spoil_somehow};
use super::super::random::Random;
use super::super::script::Script;
use super::super::sections::section_head;
use super::states::{filter_pid, one_pid};
use crate::numbers_of_the_house::AREA_BYTES;

pub fn contradiction(random: &mut Random, script: &mut Script) {
    let pid = filter_pid(random);
    let counter = random.below(16) as u8;
    let held = match random.below(3) {
        0 => random.pick(&[1, 2, 3, 4]),
        1 => random.pick(&[4_092, 4_093, 4_094, 4_095]),
        _ => random.between(3, 4_095),
    };
    let mut head = section_head(random, held.saturating_sub(2));
    match random.below(6) {
        0 => head[0] = 0xFF,
        1 => head[0] = 0xFE,
        2 => {
            let length = random.pick(&[4_094, 4_095]);
            head = section_head(random, length);
        }
        3 => head = section_head(random, 4_093),
        4 => {
            let least = held.saturating_sub(3);
            let length = random.pick(&[least, least / 2, 0]);
            head = section_head(random, length);
        }
        _ => {}
    }
    let (state, index) = one_pid(random, pid, held, counter);
    script.state(&state);
    script.store(index * AREA_BYTES, &head);
    for _ in 0..random.between(1, 3) {
        let mut packet = any_packet(random, pid, counter);
        if random.one_in(5) {
            spoil_somehow(random, &mut packet);
        }
        script.packet(&packet);
    }
    if random.one_in(3) {
        let other = filter_pid(random);
        script.open(other, named_choice(random));
        let packet = any_packet(random, other, 0);
        script.packet(&packet);
        script.call("close 1");
    }
}
