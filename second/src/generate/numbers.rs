//! All filter numbers given, one after the other, until none is left.

use super::choices::{choice, named_choice};
use super::packets::any_packet;
use super::random::Random;
use super::script::Script;
use crate::numbers_of_the_house::LAST_NUMBER;
use crate::state::Choice;

const PIDS: [u16; 4] = [0, 1, 17, 8_190];

pub fn generate(random: &mut Random, script: &mut Script) {
    short_run(random, script);
    script.set_up("fresh");
    let mut open = Vec::new();
    for number in 1..=LAST_NUMBER {
        script.open(random.pick(&PIDS), choice(random));
        open.push(number);
        if random.one_in(500) {
            let pid = random.pick(&PIDS);
            let packet = any_packet(random, pid, 0);
            script.packet(&packet);
            script.open(random.pick(&PIDS), Choice::One(255));
        }
        while open.len() > 3 || !(open.is_empty() || random.one_in(4)) {
            let index = random.below(open.len());
            script.call(&format!("close {}", open.swap_remove(index)));
        }
    }
    exhausted(random, script, &open);
    script.set_up("fresh");
    script.open(17, Choice::All);
    script.call("close 1");
}

/// The quick way to the last number.
fn short_run(random: &mut Random, script: &mut Script) {
    for next in [65_533, 65_535, 65_536] {
        script.set_up("fresh");
        script.set_up(&format!("next {}", next));
        for _ in 0..5 {
            script.open(random.pick(&[0, 16, 8_191]), named_choice(random));
            script.call(&format!("close {}", random.pick(&[65_533, 65_534, 65_535])));
        }
    }
}

/// No number is left, whether filters are open or closed.
fn exhausted(random: &mut Random, script: &mut Script, open: &[u32]) {
    for number in open {
        script.open(0, Choice::One(254));
        script.call(&format!("close {}", number));
        script.open(random.pick(&[0, 17, 8_191, 65_535]), named_choice(random));
    }
    for pid in [0, 8_191] {
        for choice in [Choice::All, Choice::One(254), Choice::One(255)] {
            script.open(pid, choice);
        }
    }
    script.call("close 65535");
    let packet = any_packet(random, 0, 0);
    script.packet(&packet);
}
