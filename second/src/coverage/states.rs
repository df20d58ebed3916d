//! The states that outcomes print, each beside the one before it.

/// A record's word and its numbers.
type Record = Vec<String>;

/// The words of records; as lines they set one, and print no state.
const RECORDS: [&str; 3] = ["next", "area", "place"];

/// The place of REPEATED in an area's record.
const REPEATED: usize = 7;

/// What the state of one outcome shows.
#[derive(Default)]
pub struct Shown {
    /// Some area has the mark of a repeat.
    pub repeated: bool,
    /// The call changed the record of one area, which forgot its repeat and kept its counter.
    pub forgot: bool,
}

/// The state that the last outcome with one printed, until a line sets a record.
///
/// A script's end needs no care: the next one starts fresh, and there an area gets a mark only by outcomes that print it or by a line that sets it.
#[derive(Default)]
pub struct States {
    last: Option<Vec<Record>>,
}

impl States {
    pub fn shown(&mut self, parts: &[&str]) -> Shown {
        if RECORDS.contains(&parts[0]) {
            self.last = None;
        }
        let mut shown = Shown::default();
        if let Some(state) = printed(parts) {
            shown.repeated = state.iter().any(|record| has_mark(record, "1"));
            let last = self.last.as_ref();
            shown.forgot = last.map_or(false, |last| forgot_in(last, &state));
            self.last = Some(state);
        }
        shown
    }
}

/// The records of the state that an outcome prints, from its `next` on.
fn printed(parts: &[&str]) -> Option<Vec<Record>> {
    let start = 1 + parts[1..].iter().position(|part| *part == "next")?;
    let mut records: Vec<Record> = Vec::new();
    for part in &parts[start..] {
        match records.last_mut() {
            Some(record) if !RECORDS.contains(part) => record.push(part.to_string()),
            _ => records.push(vec![part.to_string()]),
        }
    }
    Some(records)
}

fn has_mark(record: &[String], mark: &str) -> bool {
    record[0] == "area" && record.get(REPEATED).map_or(false, |found| found == mark)
}

/// Whether exactly one record differs, and that one forgot.
fn forgot_in(before: &[Record], after: &[Record]) -> bool {
    let pairs = before.iter().zip(after);
    let mut changed = pairs.filter(|(old, new)| old != new);
    match (changed.next(), changed.next()) {
        (Some((old, new)), None) => before.len() == after.len() && forgot(old, new),
        _ => false,
    }
}

/// Whether an area's mark went from 1 to 0 while all but HELD stayed.
fn forgot(old: &[String], new: &[String]) -> bool {
    let same = |from: usize, to: usize| old[from..to] == new[from..to];
    has_mark(old, "1") && has_mark(new, "0") && same(0, 4) && same(5, REPEATED)
}
