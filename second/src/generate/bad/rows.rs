//! Lines that bring records, at the limits of the ticks and of the row.

use super::super::random::Random;
use super::super::script::Script;

const LAST_TICK: u128 = u64::MAX as u128;

/// A line whose last tick is the last of all, one before it or one past it.
pub fn ending(random: &mut Random, script: &mut Script) {
    let count = random.pick(&[0, 1, 2, 3, 1_024, 1_025, 2_047, 2_048, 2_049]);
    let any = u128::from(random.next()) >> random.below(64);
    let step = random.pick(&[0, 1, LAST_TICK / 2_047, LAST_TICK / 2, LAST_TICK, any]);
    let way = step * count.max(1) - step;
    let past = LAST_TICK + random.below(3) as u128;
    let tick = past.saturating_sub(way + 1);
    let pid = random.below(3);
    script.set_up("clear");
    script.call(&format!("arrive {} {} {} {}", tick, step, count, pid));
    look(script);
}

/// A row that is filled up to its limit, to one less or past it, and then one record more and another.
pub fn crowd(random: &mut Random, script: &mut Script) {
    let first = random.below(2_048);
    let second = random.between(2_047, 2_050) - first;
    script.set_up("clear");
    for count in [first, second, 1, 1] {
        let [tick, step, pid] = [(); 3].map(|()| random.below(3));
        script.call(&format!("arrive {} {} {} {}", tick, step, count, pid));
    }
    look(script);
}

/// Lines that tell how many records the row has, and something of what they are.
pub fn look(script: &mut Script) {
    script.set_up("arrive 0 0 0 0");
    for pid in 0..3 {
        script.set_up(&format!("judge {}", pid));
    }
}
