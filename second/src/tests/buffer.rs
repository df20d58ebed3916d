//! The transport buffer: request 7's examples, and rows beside a buffer that goes tick by tick.

use crate::generate::random::Random;
use crate::refusal_numbers::Refusal;
use crate::transport_buffer::{judge, Record, Verdict};
use Verdict::{Lingers, Overruns, Passes};

pub const LAST: u64 = u64::MAX;
const REFUSED: Result<Verdict, Refusal> = Err(Refusal(70));

/// Records of PID 5.
pub fn own(ticks: &[u64]) -> Vec<Record> {
    let record = |tick: &u64| Record {
        tick: *tick,
        pid: 5,
    };
    ticks.iter().map(record).collect()
}

/// So many ticks at one spacing.
pub fn even(first: u64, spacing: u64, many: u64) -> Vec<u64> {
    (0..many).map(|place| first + place * spacing).collect()
}

/// The verdict on packets of PID 5 alone.
pub fn alone(ticks: &[u64]) -> Result<Verdict, Refusal> {
    judge(&own(ticks), 5)
}

/// The verdict on packets of PID 5 among others.
fn among(records: &[(u64, u16)]) -> Result<Verdict, Refusal> {
    let record = |(tick, pid): &(u64, u16)| Record {
        tick: *tick,
        pid: *pid,
    };
    let row: Vec<Record> = records.iter().map(record).collect();
    judge(&row, 5)
}

#[test]
fn the_rows_of_request_7() {
    let mut last = even(0, 20_303, 1_328);
    last.extend([1_327 * 20_303; 2]);
    let examples = [
        (vec![], Passes),
        (vec![0, 0], Passes),
        (vec![0, 0, 0], Overruns(2)),
        (vec![0, 0, 5_615], Overruns(2)),
        (vec![0, 0, 5_616], Passes),
        (even(0, 2_808, 4), Overruns(3)),
        (even(0, 20_303, 1_329), Passes),
        (even(0, 20_303, 1_331), Lingers(1_329)),
        (even(0, 20_304, 2_048), Passes),
        (vec![LAST; 2], Passes),
        (vec![LAST; 3], Overruns(2)),
        (vec![0, LAST], Passes),
        (last, Overruns(1_329)),
    ];
    for (ticks, verdict) in examples {
        assert_eq!(alone(&ticks), Ok(verdict), "{:?}", ticks);
    }
    assert_eq!(alone(&[0, 0, 0, 9, 8]), REFUSED);
    assert_eq!(among(&[(9, 6), (8, 6)]), Ok(Passes));
    assert_eq!(among(&[(9, 5), (8, 6), (9, 5)]), Ok(Passes));
    let five = [(9, 6), (0, 5), (0, 6), (0, 5), (0, 5)];
    assert_eq!(among(&five), Ok(Overruns(4)));
}

#[test]
fn any_spacing_at_the_brim_and_one_tick_less() {
    for many in 3..1_330 {
        // So many packets are too much by this, and all but the first have a gap before them.
        let [excess, gaps] = [many * 20_304 - 55_296, many - 1];
        let mut ticks = even(0, (excess + gaps - 1) / gaps, many);
        let last = ticks.len() - 1;
        ticks[last] = excess;
        assert_eq!(alone(&ticks), Ok(Passes), "{}", many);
        ticks[last] = excess - 1;
        assert_eq!(alone(&ticks), Ok(Overruns(last)), "{}", many);
    }
}

#[test]
fn idle_time_is_no_room() {
    for idle in [40_608, 40_609, 100_000, 27_000_000, 1 << 32, LAST] {
        for before in [vec![], vec![0], vec![0, 0]] {
            let mut ticks = before.clone();
            ticks.extend([idle; 2]);
            assert_eq!(alone(&ticks), Ok(Passes), "{:?}", ticks);
            ticks.push(idle);
            let last = before.len() + 2;
            assert_eq!(alone(&ticks), Ok(Overruns(last)), "{:?}", ticks);
        }
    }
}

#[test]
fn a_fall_anywhere_is_refused_before_any_verdict() {
    let rows = [
        even(7, 20_304, 6),
        even(7, 1, 6),
        vec![7; 6],
        even(7, 20_303, 1_334),
        even(LAST - 5, 1, 6),
    ];
    for ticks in rows {
        assert_ne!(alone(&ticks), REFUSED);
        let many = ticks.len();
        for place in (1..8).chain(many - 5..many).filter(|place| *place < many) {
            for fallen in [ticks[place - 1] - 1, 0] {
                let mut ticks = ticks.clone();
                ticks[place] = fallen;
                assert_eq!(alone(&ticks), REFUSED, "{} {}", place, fallen);
                let mut row = own(&ticks);
                row[place].pid = 6;
                assert_eq!(judge(&row, 6), Ok(Passes));
                row.insert(place, own(&[fallen])[0]);
                assert_eq!(judge(&row, 5), REFUSED);
            }
        }
    }
}

#[test]
fn any_pid_is_compared_and_nothing_else() {
    for pid in [0, 5, 0x0105, 0x1FFE, 0x1FFF, 0x2000, 0x2005, 0xFFFF] {
        let tick = 3;
        for other in [pid ^ 1, pid ^ 0x100, pid ^ 0x2000, pid ^ 0x8000] {
            let row = [pid, other, pid, other, pid].map(|pid| Record { tick, pid });
            assert_eq!(judge(&row, pid), Ok(Overruns(4)), "{}", pid);
            assert_eq!(judge(&row, other), Ok(Passes), "{}", other);
            assert_eq!(judge(&row, pid ^ 2), Ok(Passes));
        }
    }
}

/// The verdict by a buffer that loses a 108th of a byte in each tick, on packets alone.
fn by_ticks(ticks: &[u64]) -> Verdict {
    let mut level = 0u64;
    let [mut now, mut since] = [ticks[0]; 2];
    for (index, tick) in ticks.iter().enumerate() {
        while now < *tick {
            now += 1;
            level = level.saturating_sub(1);
        }
        if level == 0 {
            since = now;
        }
        level += 188 * 108;
        if level > 512 * 108 {
            return Overruns(index);
        }
        let (mut later, mut left) = (now, level);
        while left > 0 {
            later += 1;
            left -= 1;
        }
        if later - since > 27_000_000 {
            return Lingers(index);
        }
    }
    Passes
}

#[test]
fn short_rows_tick_by_tick() {
    let random = &mut Random::new(7);
    let edges = [0, 1, 2_808, 5_616, 8_640, 10_152, 14_688, 20_304, 40_608];
    let [mut passed, mut overrun] = [0; 2];
    for _ in 0..2_000 {
        let mut tick = random.pick(&[0, 1 << 40]);
        let mut ticks = vec![tick];
        for _ in 0..random.between(1, 7) {
            let gap = random.pick(&edges) + random.below(3) as u64;
            tick += gap.saturating_sub(1);
            ticks.push(tick);
        }
        let verdict = by_ticks(&ticks);
        assert_eq!(alone(&ticks), Ok(verdict), "{:?}", ticks);
        passed += usize::from(verdict == Passes);
        overrun += usize::from(verdict != Passes);
    }
    assert!(passed > 400 && overrun > 400, "{} {}", passed, overrun);
}

#[test]
fn a_busy_time_tick_by_tick() {
    let mut ticks = even(0, 20_303, 1_330);
    assert_eq!(by_ticks(&ticks), Lingers(1_329));
    assert_eq!(alone(&ticks), Ok(Lingers(1_329)));
    // The packets before leave the buffer empty at this tick.
    ticks[1_329] = 1_329 * 20_304;
    assert_eq!(by_ticks(&ticks), Passes);
    assert_eq!(alone(&ticks), Ok(Passes));
    ticks[1_329] -= 1;
    assert_eq!(by_ticks(&ticks), Lingers(1_329));
    assert_eq!(alone(&ticks), Ok(Lingers(1_329)));
}
