//! Verdicts on made rows: by counting packets, without the other PIDs, with more behind them, and at other ticks.

use super::buffer::{alone, even, own, LAST};
use crate::generate::random::Random;
use crate::refusal_numbers::Refusal;
use crate::transport_buffer::{judge, Record, Verdict};
use Verdict::{Lingers, Overruns, Passes};

const MADE: usize = 3_000;

/// What a packet leaves: the level, and which packet it is since the buffer was found empty.
pub struct Left {
    pub level: u64,
    pub place: u64,
}

/// What each packet leaves where no tick falls: as many packets as came since, less the time since.
pub fn left(ticks: &[u64]) -> Vec<Left> {
    let [mut since, mut place] = [0; 2];
    let packet = |tick: &u64| {
        if tick - since >= place * 20_304 {
            since = *tick;
            place = 0;
        }
        place += 1;
        let level = place * 20_304 - (tick - since);
        Left { level, place }
    };
    ticks.iter().map(packet).collect()
}

/// The ticks of a PID, each with its index in the row.
pub fn ticks_of(row: &[Record], pid: u16) -> (Vec<usize>, Vec<u64>) {
    let indexed = row.iter().enumerate();
    let own = indexed.filter(|(_, record)| record.pid == pid);
    own.map(|(index, record)| (index, record.tick)).unzip()
}

/// The verdict by what each packet leaves; the 1,330th packet of a busy time is the first that is too much.
pub fn by_counting(row: &[Record], pid: u16) -> Result<Verdict, Refusal> {
    let (indices, ticks) = ticks_of(row, pid);
    let mut sorted = ticks.clone();
    sorted.sort_unstable();
    if ticks != sorted {
        return Err(Refusal(70));
    }
    for (index, left) in indices.into_iter().zip(left(&ticks)) {
        if left.level > 55_296 {
            return Ok(Overruns(index));
        }
        if left.place >= 1_330 {
            return Ok(Lingers(index));
        }
    }
    Ok(Passes)
}

/// Rows of PIDs 5 and 6, in runs at spacings that fit or not; at times two records are exchanged.
fn rows() -> Vec<Vec<Record>> {
    let random = &mut Random::new(77);
    (0..MADE).map(|_| made_row(random)).collect()
}

fn made_row(random: &mut Random) -> Vec<Record> {
    let mut row = Vec::new();
    let mut ticks = [random.below(100_000) as u64; 2];
    for _ in 0..random.between(1, 8) {
        let which = random.below(2);
        let any = random.next() >> random.between(8, 60);
        ticks[which] += random.pick(&[0, 5_616, 14_688, 20_304, 40_608, any]);
        let spacing = random.pick(&[0, 2_808, 8_640, 20_303, 20_304, 20_305]);
        let long = random.pick(&[40, 200, 1_400]);
        let many = match spacing {
            0..=19_999 => random.between(1, 3),
            _ => random.pick(&[1, 2, 4, long]),
        };
        for _ in 0..many {
            let (tick, pid) = (ticks[which], 5 + which as u16);
            row.push(Record { tick, pid });
            ticks[which] += spacing;
        }
    }
    row.truncate(2_048);
    if random.one_in(8) {
        let [one, other] = [(); 2].map(|()| random.below(row.len()));
        row.swap(one, other);
    }
    row
}

#[test]
fn made_rows_by_counting() {
    let mut told = [0; 4];
    for row in rows() {
        let verdict = judge(&row, 5);
        assert_eq!(verdict, by_counting(&row, 5), "{:?}", row);
        told[match verdict {
            Ok(Passes) => 0,
            Ok(Overruns(_)) => 1,
            Ok(Lingers(_)) => 2,
            Err(_) => 3,
        }] += 1;
    }
    assert!(told.iter().min() > Some(&50), "{:?}", told);
}

#[test]
fn other_pids_change_only_the_index() {
    for row in rows() {
        let (indices, ticks) = ticks_of(&row, 5);
        let expected = match alone(&ticks) {
            Ok(Overruns(place)) => Ok(Overruns(indices[place])),
            Ok(Lingers(place)) => Ok(Lingers(indices[place])),
            other => other,
        };
        assert_eq!(judge(&row, 5), expected, "{:?}", row);
    }
}

#[test]
fn what_comes_after_a_break_matters_only_for_refusal_70() {
    let random = &mut Random::new(777);
    for row in rows() {
        let told = judge(&row, 5);
        let index = match told {
            Ok(Overruns(index) | Lingers(index)) => index,
            _ => continue,
        };
        assert_eq!(judge(&row[..index], 5), Ok(Passes));
        assert_eq!(judge(&row[..=index], 5), told);
        let mut more = row[..=index].to_vec();
        let mut last = row[index].tick;
        for _ in 0..4 {
            last += random.pick(&[0, 20_303, 20_304, LAST / 8]);
            more.extend(own(&[last]));
            assert_eq!(judge(&more, 5), told);
        }
        more.extend(own(&[last - 1, LAST]));
        assert_eq!(judge(&more, 5), Err(Refusal(70)));
    }
}

#[test]
fn what_passes_passes_from_the_first_record_on() {
    let random = &mut Random::new(7_777);
    for row in rows() {
        if judge(&row, 5) == Ok(Passes) {
            let part = random.below(row.len());
            assert_eq!(judge(&row[..part], 5), Ok(Passes));
        }
    }
}

#[test]
fn only_the_differences_of_ticks_count() {
    for row in rows() {
        let ticks = row.iter().map(|record| record.tick);
        let (least, most) = (ticks.clone().min(), ticks.max());
        let room = LAST - most.unwrap();
        for start in [0, 1 << 32, room - 1, room] {
            let mut later = row.clone();
            for record in &mut later {
                record.tick = record.tick - least.unwrap().min(start) + start;
            }
            assert_eq!(judge(&later, 5), judge(&row, 5), "{}", start);
        }
    }
}

#[test]
fn the_1330th_packet_of_a_busy_time_is_too_much() {
    for spacing in 20_278..20_304 {
        for (many, verdict) in [(1_329, Passes), (1_330, Lingers(1_329))] {
            for first in [0, LAST - (many - 1) * spacing] {
                let told = alone(&even(first, spacing, many));
                assert_eq!(told, Ok(verdict), "{} {}", spacing, many);
            }
        }
    }
    let random = &mut Random::new(1_330);
    for _ in 0..40 {
        let before = random.between(0, 600);
        let mut ticks = even(0, 20_304, before as u64);
        let mut tick = before as u64 * 20_304;
        let mut level = 0;
        for _ in 0..1_340 {
            level += 20_304;
            ticks.push(tick);
            // The next one has to fit, and must not find the buffer empty.
            let least = (level + 20_304usize).saturating_sub(55_296);
            let gap = random.between(least, level - 1);
            level -= gap;
            tick += gap as u64;
        }
        assert_eq!(alone(&ticks), Ok(Lingers(before + 1_329)));
        ticks.truncate(before + 1_329);
        assert_eq!(alone(&ticks), Ok(Passes));
    }
}
