//! Rows of packets, and verdicts on them as they are and as they grow.

mod rows;
mod walks;

use super::random::Random;
use super::script::Script;
use crate::transport_buffer::Record;
use rows::{arrive, fall, mix, others, place, records, ROW};
use walks::walk;

/// A row that starts and ends empty, with one verdict to four.
pub fn generate(random: &mut Random, script: &mut Script) {
    let pid = pid(random);
    let other = pid ^ random.pick(&[1, 2, 0x100, 0x1FFF, 0x2000, 0x8000, 0xFFFF]);
    let row = row(random, pid, other);
    if random.one_in(3) {
        let part = random.below(row.len());
        arrive(random, script, &row[..part]);
        ask(script, pid);
        arrive(random, script, &row[part..]);
    } else {
        arrive(random, script, &row);
    }
    if random.one_in(20) {
        script.set_up("fresh");
    }
    ask(script, pid);
    let there = row.iter().any(|record| record.pid == other);
    if random.one_in(if there { 2 } else { 12 }) {
        ask(script, other);
    }
    if random.one_in(20) {
        ask(script, random.next() as u16);
    }
    script.set_up("clear");
}

fn ask(script: &mut Script, pid: u16) {
    script.call(&format!("judge {}", pid));
}

fn pid(random: &mut Random) -> u16 {
    let any = random.next() as u16;
    random.pick(&[0, 5, 0x100, 0x1FFE, 0x1FFF, 0x2000, 0xFFFF, any])
}

/// The packets of a PID, at times with a tick that falls and at times with those of others between.
fn row(random: &mut Random, pid: u16, other: u16) -> Vec<Record> {
    let mut ticks = match random.below(40) {
        0 => Vec::new(),
        _ => walk(random),
    };
    place(random, &mut ticks);
    if random.one_in(6) {
        fall(random, &mut ticks);
    }
    let own = records(&ticks, pid);
    if random.one_in(2) {
        return own;
    }
    let mut between = others(random, &own, other);
    between.truncate(ROW - own.len());
    mix(random, own, between)
}
