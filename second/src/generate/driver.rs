//! Scripts of open, close and packet calls.

mod contradictions;
mod faults;
mod house;
mod joints;
mod states;
mod streams;
mod stuck;
mod unsound;

use super::random::Random;
use super::script::Script;

type Scenario = fn(&mut Random, &mut Script);

/// Each scenario with its weight.
const SCENARIOS: [(usize, Scenario); 11] = [
    (4, streams::stream),
    (3, stuck::bursts),
    (8, stuck::marked),
    (26, joints::joint),
    (8, joints::longest),
    (16, faults::fault),
    (20, unsound::broken),
    (8, unsound::shaken),
    (14, contradictions::contradiction),
    (10, states::set_state),
    (2, house::house),
];

/// One scenario, at times over a list filled before it, and now and then a look at the whole buffers.
pub fn generate(random: &mut Random, script: &mut Script) {
    if random.one_in(4) {
        fill_list(random, script);
    }
    let scenario = random.weighed(&SCENARIOS);
    scenario(random, script);
    if random.one_in(50) {
        let at = random.below(8_000);
        let bytes = random.bytes(16);
        script.set_up(&format!("output {} {}", at, super::script::field(&bytes)));
        script.set_up("digest");
    }
}

/// Sets for some places of the list or for all, so that it shows which of them a call writes and which it leaves.
fn fill_list(random: &mut Random, script: &mut Script) {
    let (first, many) = if random.one_in(32) {
        (0, 128)
    } else {
        (random.below(4), random.between(1, 8))
    };
    for place in first..first + many {
        let any = random.next() as u32;
        let set = random.pick(&[0, 1, 2, 64, u32::MAX, any]);
        script.set_up(&format!("list {} {}", place, set));
    }
}
