//! A full house: all areas and places taken, freed and taken again.

use super::super::choices::named_choice;
use super::super::packets::any_packet;
use super::super::random::Random;
use super::super::script::Script;
use super::states::{counter_before, filter_pid, some_number};
use crate::filters_and_areas::{close, open};
use crate::state::{Choice, State};

pub fn house(random: &mut Random, script: &mut Script) {
    let kinds = random.between(7, 10);
    let pids: Vec<u16> = (0..kinds).map(|_| filter_pid(random)).collect();
    let mut state = State::fresh();
    script.set_up("fresh");
    if random.one_in(3) {
        state.next = random.pick(&[65_500, 65_520, 65_530]);
        script.set_up(&format!("next {}", state.next));
    }
    let many = random.between(20, 60);
    for step in 0..many {
        match random.below(10) {
            0..=1 if step > many / 2 => leave(random, script, &mut state),
            0 => {
                let pid = random.pick(&pids);
                let counter = counter_before(&state, pid);
                let packet = any_packet(random, pid, counter);
                script.packet(&packet);
            }
            1 => leave(random, script, &mut state),
            _ => {
                let pid = random.pick(&pids);
                let choice = named_choice(random);
                script.open(pid, choice);
                // The generator follows the state only to know which numbers are open.
                let _ = open(&mut state, pid, choice);
            }
        }
    }
    // Mostly no place or no area is free here, and table_id 255 is still refused first.
    for pid in [random.pick(&pids), filter_pid(random)] {
        script.open(pid, Choice::One(255));
    }
    for _ in 0..random.below(12) {
        leave(random, script, &mut state);
    }
}

fn leave(random: &mut Random, script: &mut Script, state: &mut State) {
    let number = some_number(random, state);
    script.call(&format!("close {}", number));
    // A number that is not open is refused here as in the script.
    let _ = close(state, number);
}
