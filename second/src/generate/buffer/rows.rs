//! Rows put together from the packets of two PIDs, and the lines that bring them.

use super::super::random::Random;
use super::super::script::Script;
use super::walks::walk;
use crate::transport_buffer::Record;

/// For how many records a row has room.
pub const ROW: usize = 2_048;

/// Moves ticks that start at 0 to a place near it, to the end of all ticks or to any other place.
pub fn place(random: &mut Random, ticks: &mut [u64]) {
    let few = random.below(60_000) as u64;
    let any = random.next() >> random.below(64);
    let start = random.pick(&[0, few, any, any, u64::MAX - few, u64::MAX]);
    shift(ticks, start);
}

/// Moves ticks that start at 0 so far, or as far as there is room.
fn shift(ticks: &mut [u64], start: u64) {
    let room = u64::MAX - ticks.last().unwrap_or(&0);
    ticks.iter_mut().for_each(|tick| *tick += start.min(room));
}

/// Lets a tick fall at the first packets, at the last ones or anywhere, by one tick or by many.
pub fn fall(random: &mut Random, ticks: &mut [u64]) {
    if ticks.len() < 2 {
        return;
    }
    let last = ticks.len() - 1;
    let any = random.between(1, last);
    let at = random.pick(&[1, last, any, any]);
    let before = ticks[at - 1];
    let below = before.saturating_sub(1);
    ticks[at] = random.pick(&[below, below, before / 2, 0]);
}

pub fn records(ticks: &[u64], pid: u16) -> Vec<Record> {
    let record = |tick: &u64| Record { tick: *tick, pid };
    ticks.iter().map(record).collect()
}

/// Records of another PID: some that would change the verdict if they counted, packets of its own, or as many as a row has room for.
pub fn others(random: &mut Random, own: &[Record], pid: u16) -> Vec<Record> {
    let start = own.first().map_or(0, |record| record.tick);
    let ticks = match random.below(24) {
        0 => vec![start; ROW],
        1..=15 => odd_ticks(random, own),
        _ => {
            let mut ticks = walk(random);
            shift(&mut ticks, start);
            ticks
        }
    };
    records(&ticks, pid)
}

/// Ticks beside one of the packets, before all or after all, in any order.
fn odd_ticks(random: &mut Random, own: &[Record]) -> Vec<u64> {
    let some = own.get(random.below(own.len()));
    let tick = some.map_or(0, |record| record.tick);
    let [below, above] = [tick.saturating_sub(1), tick.saturating_add(1)];
    let ticks = [tick, tick, below, above, 0, u64::MAX];
    (0..random.between(1, 4))
        .map(|_| random.pick(&ticks))
        .collect()
}

/// The records of both in one row, in pieces, those of each in their order.
pub fn mix(random: &mut Random, mut own: Vec<Record>, mut others: Vec<Record>) -> Vec<Record> {
    let mut row = Vec::new();
    while !(own.is_empty() && others.is_empty()) {
        let from = if random.one_in(2) {
            &mut own
        } else {
            &mut others
        };
        let many = random.between(1, 1 + from.len()).min(from.len());
        row.extend(from.drain(..many));
    }
    row
}

/// Lines that bring the records, each as many as it can, and at times one that brings none.
pub fn arrive(random: &mut Random, script: &mut Script, records: &[Record]) {
    let mut left = records;
    while let Some(Record { tick, pid }) = left.first() {
        // Where a line brings one record or none, its step may be anything.
        let any = random.next();
        if random.one_in(24) {
            script.set_up(&format!("arrive {} {} 0 {}", any, u64::MAX, pid));
        }
        let (step, many) = run(left).unwrap_or((random.pick(&[0, 0, any]), 1));
        script.set_up(&format!("arrive {} {} {} {}", tick, step, many, pid));
        left = &left[many..];
    }
}

/// The step from the first record to the second and how many go on so, or nothing where one line cannot bring the two.
fn run(records: &[Record]) -> Option<(u64, usize)> {
    let step = |two: &[Record]| {
        let later = two[1].tick.checked_sub(two[0].tick);
        later.filter(|_| two[0].pid == two[1].pid)
    };
    let mut steps = records.windows(2).map(step);
    let first = steps.next()??;
    let alike = steps.take_while(|step| *step == Some(first));
    Some((first, 2 + alike.count()))
}
