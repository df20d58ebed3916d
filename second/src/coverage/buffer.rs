//! The rows that lines of `clear` and `arrive` make, for what verdicts on them do not tell.

use crate::numbers_of_the_house::{PACKET_TICKS, ROOM_TICKS, TICKS_A_SECOND};

const PACKET: u128 = PACKET_TICKS as u128;
const BRIM: u128 = ROOM_TICKS as u128;

/// The longest time from a packet that finds the buffer empty until it is empty again.
const LONGEST: u128 = TICKS_A_SECOND as u128;

/// The ticks and PIDs of the row; one of which lines are missing counts as empty.
///
/// A script's end needs no care: made rows are cleared, and the first line of a new one tells by its size that it is the first.
#[derive(Default)]
pub struct Rows {
    row: Vec<(u128, u128)>,
}

/// What a packet leaves: the level, and whether that takes too long to drain.
struct Left {
    level: u128,
    long: bool,
}

impl Left {
    fn breaks(&self) -> bool {
        self.level > BRIM || self.long
    }
}

impl Rows {
    /// Follows the row, and tells the marks of a verdict on it.
    pub fn shown(&mut self, parts: &[&str], line: Option<&str>) -> Vec<&'static str> {
        let numbers = line.map(numbers).unwrap_or_default();
        match (parts, numbers.as_slice()) {
            (["clear"], _) => self.row.clear(),
            (["arrive", size], [tick, step, count, pid]) => {
                let new = (0..*count).map(|place| (tick + place * step, *pid));
                self.arrive(size, new.collect());
            }
            (["arrive", size], _) => self.arrive(size, Vec::new()),
            (["judge", verdict, ..], [pid]) => return self.marks(verdict, *pid),
            _ => {}
        }
        Vec::new()
    }

    /// Puts records behind those of the row, or begins a new one where the size tells so.
    fn arrive(&mut self, size: &str, new: Vec<(u128, u128)>) {
        let fits = |known: usize| size == (known + new.len()).to_string();
        if !fits(self.row.len()) {
            self.row.clear();
        }
        if fits(self.row.len()) {
            self.row.extend(new);
        }
    }

    fn marks(&self, verdict: &str, pid: u128) -> Vec<&'static str> {
        let own = self.row.iter().filter(|record| record.1 == pid);
        let ticks: Vec<u128> = own.map(|record| record.0).collect();
        let left = left(&ticks);
        let broken = left.iter().position(Left::breaks);
        let counted = broken.map_or(&left[..], |place| &left[..=place]);
        let last = counted.last();
        let brim = counted.iter().any(|left| left.level == BRIM);
        let both = last.map_or(false, |left| left.level > BRIM && left.long);
        let marks = [
            ("back70", verdict == "refused" && broken.is_some()),
            ("brim", verdict != "refused" && brim),
            ("both", verdict == "overruns" && both),
        ];
        let found = marks.iter().filter(|(_, holds)| *holds);
        found.map(|(mark, _)| *mark).collect()
    }
}

/// The numbers behind a line's word, if they are numbers.
fn numbers(line: &str) -> Vec<u128> {
    let fields = line.split(' ').skip(1).map(str::parse::<u64>);
    let numbers = fields.map(|field| field.map(u128::from));
    numbers.collect::<Result<_, _>>().unwrap_or_default()
}

/// What each packet leaves, up to the first whose tick falls: since the buffer was empty, all but the time that went by.
fn left(ticks: &[u128]) -> Vec<Left> {
    let falls = ticks.windows(2).position(|two| two[1] < two[0]);
    let rising = falls.map_or(ticks, |place| &ticks[..=place]);
    let (mut since, mut drained) = (0, 0);
    let packet = |tick: &u128| {
        if *tick >= drained {
            since = *tick;
            drained = *tick;
        }
        drained += PACKET;
        Left {
            level: drained - tick,
            long: drained - since > LONGEST,
        }
    };
    rising.iter().map(packet).collect()
}
