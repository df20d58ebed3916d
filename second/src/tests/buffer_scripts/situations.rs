//! The situations that a verdict can be asked for in.

use std::collections::BTreeMap;

use super::super::buffer_rows::{by_counting, left, ticks_of, Left};
use crate::refusal_numbers::Refusal;
use crate::transport_buffer::{Record, Verdict};

/// How often each situation was found.
#[derive(Default)]
pub struct Found {
    pub of: BTreeMap<String, usize>,
}

impl Found {
    pub fn note(&mut self, name: &str, holds: bool) {
        if holds {
            *self.of.entry(String::from(name)).or_insert(0) += 1;
        }
    }
}

/// What one line asks of a row.
pub struct Asked<'a> {
    row: &'a [Record],
    pid: u16,
    outcome: &'a str,
    ticks: Vec<u64>,
    /// What the packets leave up to the first break or the first fall.
    left: Vec<Left>,
}

impl Asked<'_> {
    pub fn of<'a>(row: &'a [Record], pid: u16, outcome: &'a str) -> Asked<'a> {
        let (_, ticks) = ticks_of(row, pid);
        let rising = falls(&ticks).map_or(&ticks[..], |place| &ticks[..place]);
        let mut left = left(rising);
        let broken = left.iter().position(breaks);
        left.truncate(broken.map_or(left.len(), |place| place + 1));
        Asked {
            row,
            pid,
            outcome,
            ticks,
            left,
        }
    }

    fn is(&self, word: &str) -> bool {
        self.outcome.split(' ').nth(1) == Some(word)
    }

    fn broken(&self) -> Option<&Left> {
        self.left.last().filter(|left| breaks(left))
    }
}

fn breaks(left: &Left) -> bool {
    left.level > 55_296 || left.place >= 1_330
}

/// The place of the first tick that is below the one before it.
fn falls(ticks: &[u64]) -> Option<usize> {
    let place = ticks.windows(2).position(|two| two[1] < two[0])?;
    Some(place + 1)
}

/// The gap before each packet beside the level that it drains.
fn gaps(asked: &Asked, found: &mut Found) {
    for (place, before) in asked.left.iter().enumerate().rev().skip(1) {
        let later = &asked.ticks[place + 1..];
        let gap = later[0] - asked.ticks[place];
        if let 20_303..=20_305 | 5_615..=5_617 | 2_807..=2_809 | 0 = gap {
            found.note(&format!("gap {}", gap), true);
        }
        found.note("a tick before empty", gap == before.level - 1);
        found.note("just empty", gap == before.level);
        found.note("a tick after empty", gap == before.level + 1);
        // So long that three packets would find room, if idle time were room.
        let idle = gap > before.level + 60_912;
        found.note("idle", idle);
        found.note("idle, then three", idle && later.get(2) == Some(&later[0]));
    }
}

fn levels(asked: &Asked, found: &mut Found) {
    for left in &asked.left {
        if let 55_295..=55_297 = left.level {
            found.note(&format!("level {}", left.level), true);
        }
    }
    if let Some(broken) = asked.broken() {
        let [over, long] = [broken.level > 55_296, broken.place == 1_330];
        found.note("both", over && long);
        found.note("both, by one", broken.level == 55_297 && long);
        found.note("full and too long", broken.level == 55_296 && long);
    }
}

fn ends(asked: &Asked, found: &mut Found) {
    let level = asked.left.last().map_or(0, |left| left.level);
    let tick = asked.ticks.get(asked.left.len().saturating_sub(1));
    let past = tick.map_or(false, |tick| tick.checked_add(level).is_none());
    for word in ["passes", "overruns", "lingers", "refused"] {
        found.note(&format!("{} past 2^64", word), past && asked.is(word));
    }
    found.note("the last tick", asked.ticks.contains(&u64::MAX));
}

fn refusals(asked: &Asked, found: &mut Found) {
    if let Some(place) = falls(&asked.ticks) {
        assert!(asked.is("refused"));
        let broken = asked.broken().is_some();
        found.note("a fall after a break", broken);
        found.note("a fall before any break", !broken);
        found.note("a fall at the first", place == 1);
        found.note("a fall at the last", place == asked.ticks.len() - 1);
        let by_one = asked.ticks[place] + 1 == asked.ticks[place - 1];
        found.note("a fall by one", by_one);
        found.note("a fall by more", !by_one);
    }
}

fn busy_times(asked: &Asked, found: &mut Found) {
    let places = asked.left.iter().map(|left| left.place);
    let longest = places.max().unwrap_or(0);
    let ends = asked.left.windows(2).filter(|two| two[1].place == 1);
    let long = ends.filter(|two| two[0].place > 300).count();
    if asked.is("passes") {
        for many in 1_328..1_330 {
            found.note(&format!("{} in a busy time", many), longest == many);
        }
        found.note("several busy times", long > 0 && longest > 300);
    }
    if asked.is("lingers") {
        let first = asked.left.len() - 1_330;
        let busy = &asked.ticks[first..asked.left.len()];
        let mut gaps: Vec<u64> = busy.windows(2).map(|two| two[1] - two[0]).collect();
        gaps.dedup();
        found.note("a later busy time lingers", long > 0);
        found.note("goes on after it", asked.ticks.len() > asked.left.len() + 1);
        found.note(
            "nothing comes after it",
            asked.ticks.len() == asked.left.len(),
        );
        found.note("at 20303", gaps == [20_303]);
        found.note("at less", gaps.len() == 1 && gaps[0] < 20_303);
        found.note("at several gaps", gaps.len() > 1);
    }
}

/// Records that would change the verdict if they counted.
fn others(asked: &Asked, found: &mut Found) {
    let others = asked.row.iter().filter(|record| record.pid != asked.pid);
    for bit in [0x100, 0x2000, 0x8000] {
        let alike = others.clone().any(|record| record.pid == asked.pid ^ bit);
        found.note(&format!("but for bit {:x}", bit), alike);
    }
    if !asked.is("refused") {
        let ticks: Vec<u64> = others.map(|record| record.tick).collect();
        found.note("others fall", falls(&ticks).is_some());
        let pid = asked.pid;
        let all = asked.row.iter().map(|record| Record { pid, ..*record });
        let told = told(by_counting(&all.collect::<Vec<_>>(), pid));
        let refused = told == "judge refused 70";
        found.note("all would fall", refused);
        let otherwise = told != asked.outcome && !refused;
        found.note("all would tell otherwise", otherwise);
    }
}

fn rows(asked: &Asked, found: &mut Found) {
    let [all, own] = [asked.row.len(), asked.ticks.len()];
    found.note("no record", all == 0);
    found.note("none of the PID", all > 0 && own == 0);
    found.note("2048 records", all == 2_048);
    found.note("2048 of the PID", own == 2_048);
    found.note("the last of 2048 named", asked.outcome.ends_with(" 2047"));
    found.note("PID 1fff", own > 1 && asked.pid == 0x1FFF);
    found.note("a PID above", own > 1 && asked.pid > 0x1FFF);
}

fn told(verdict: Result<Verdict, Refusal>) -> String {
    match verdict {
        Ok(Verdict::Passes) => String::from("judge passes"),
        Ok(Verdict::Overruns(index)) => format!("judge overruns {}", index),
        Ok(Verdict::Lingers(index)) => format!("judge lingers {}", index),
        Err(Refusal(number)) => format!("judge refused {}", number),
    }
}

/// Notes what a verdict is asked for, which is held to one by counting.
pub fn look(asked: &Asked, found: &mut Found) {
    assert_eq!(asked.outcome, told(by_counting(asked.row, asked.pid)));
    // Long rows have the same gaps again and again.
    if asked.left.len() < 100 {
        gaps(asked, found);
    }
    for part in [levels, ends, refusals, busy_times, others, rows] {
        part(asked, found);
    }
}
