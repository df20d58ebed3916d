//! Counts what outcomes hold, and names what they lack.

mod buffer;
mod extensions;
pub mod rates;
mod sets;
mod states;

use std::collections::BTreeMap;
use std::io::{self, BufRead, Write};

use buffer::Rows;
use extensions::inside;
use sets::nobody;
use states::{Shown, States};

/// The least number of outcomes of each call word.
const LEAST: u64 = 20_000;

/// Each call word with the refusals that its order in document 01 has, with requests 2, 6, 7, 8 and 12 of document 02.
const CALLS: [(&str, &[u32]); 26] = [
    ("open", &[1, 12, 17, 13, 14, 15]),
    ("close", &[1, 16]),
    ("packet", &[1, 3, 2, 4, 5, 6, 7, 8, 36, 9, 10, 11]),
    ("pid", &[12]),
    ("alone", &[2, 4, 5, 6, 7, 8, 36]),
    ("pat", &[20, 23, 21, 25, 22, 24, 26]),
    ("patitem", &[20, 23, 21, 25, 22, 24, 26, 27]),
    ("programs", &[3, 20, 23, 21, 25, 22, 24, 26]),
    ("pmt", &[20, 23, 21, 25, 22, 24, 26]),
    ("pmtitem", &[20, 23, 21, 25, 22, 24, 26, 27]),
    ("streams", &[3, 20, 23, 21, 25, 22, 24, 26]),
    ("outer", &[20, 23, 21, 25, 22, 24, 26, 27]),
    ("inner", &[20, 23, 21, 25, 22, 24, 26, 27]),
    ("loop", &[26, 27]),
    ("crc", &[]),
    ("pes", &[30, 31, 32, 38, 37, 33, 34, 35, 36]),
    ("stamp", &[40, 41, 36]),
    ("anystamp", &[41, 36]),
    ("setstamp", &[40, 41]),
    ("clock", &[41, 8]),
    ("setclock", &[40, 41]),
    ("apart", &[40]),
    ("forward", &[40]),
    ("rate", &[40, 80, 81]),
    ("rerate", &[82, 40, 80, 81]),
    ("judge", &[70]),
];

/// Things that must occur beside the refusals.
const MARKS: [&str; 35] = [
    "wanted",
    "unwanted",
    "jump",
    "repeat",
    "repeated",
    "stuck",
    "cut1",
    "cut2",
    "sections61",
    "begun61",
    "part61",
    "begun",
    "nobody",
    "unwanted36",
    "window",
    "piecewise",
    "splice",
    "unflagged",
    "minus0",
    "exact",
    "up",
    "down",
    "passes",
    "overruns",
    "lingers",
    "back70",
    "brim",
    "both",
    "given",
    "closed",
    "right",
    "wrong",
    "bare",
    "full",
    "bad",
];

const REFUSALS: [u32; 40] = [
    1, 2, 3, 4, 5, 6, 7, 8, 9, 10, 11, 12, 13, 14, 15, 16, 17, 20, 21, 22, 23, 24, 25, 26, 27, 30,
    31, 32, 33, 34, 35, 36, 37, 38, 40, 41, 70, 80, 81, 82,
];

#[derive(Default)]
pub struct Counts {
    of: BTreeMap<String, u64>,
    states: States,
    rows: Rows,
}

impl Counts {
    fn add(&mut self, name: &str) {
        match self.of.get_mut(name) {
            Some(count) => *count += 1,
            None => {
                self.of.insert(String::from(name), 1);
            }
        }
    }

    fn add_all(&mut self, names: Vec<&str>) {
        names.into_iter().for_each(|name| self.add(name));
    }

    pub fn get(&self, name: &str) -> u64 {
        self.of.get(name).copied().unwrap_or(0)
    }

    /// Counts one outcome, alone or before a tab and the line that it answers, under each name that fits it.
    pub fn outcome(&mut self, text: &str) {
        let (outcome, line) = match text.split_once('\t') {
            Some((outcome, line)) => (outcome, Some(line)),
            None => (text, None),
        };
        let parts: Vec<&str> = outcome.split(' ').collect();
        self.add(&format!("call {}", parts[0]));
        let shown = self.states.shown(&parts);
        if shown.repeated {
            self.add("repeated");
        }
        let marks = self.rows.shown(&parts, line);
        self.add_all(marks);
        match parts.get(1) {
            Some(&"refused") => self.refused(&parts),
            Some(&"wanted") => self.wanted(&parts, &shown),
            Some(_) if parts[0] == "alone" => self.add_all(inside(&parts)),
            Some(_) if rates::WORDS.contains(&parts[0]) => self.add_all(rates::told(&parts, line)),
            Some(word) if MARKS.contains(word) => self.add(word),
            _ if outcome == "bad" => self.add("bad"),
            _ => {}
        }
    }

    fn refused(&mut self, parts: &[&str]) {
        let number = parts.get(2).copied().unwrap_or("-");
        self.add(&format!("refused {}", number));
        self.add(&format!("{} {}", parts[0], number));
        // Where no area is in use, nobody wants the packet.
        if parts[0] == "packet" && number == "36" && !parts.contains(&"area") {
            self.add("unwanted36");
        }
    }

    fn wanted(&mut self, parts: &[&str], shown: &Shown) {
        self.add("wanted");
        let marks = [
            (2, "61", "sections61"),
            (4, "1", "jump"),
            (5, "1", "repeat"),
            (6, "1", "cut1"),
            (6, "2", "cut2"),
            (7, "61", "begun61"),
        ];
        for (place, value, name) in marks {
            if parts.get(place) == Some(&value) {
                self.add(name);
            }
        }
        match (parts.get(2), parts.get(7)) {
            (Some(&"60"), Some(&"61")) => self.add("part61"),
            (Some(&"0"), Some(begun)) if *begun != "0" => self.add("begun"),
            _ => {}
        }
        if parts.get(4) == Some(&"1") && shown.forgot {
            self.add("stuck");
        }
        if nobody(parts) {
            self.add("nobody");
        }
    }
}

/// Prints the counts, and answers whether nothing is lacking.
pub fn run(
    input: &mut dyn BufRead,
    output: &mut dyn Write,
    lacks: &mut dyn Write,
) -> io::Result<bool> {
    let mut counts = Counts::default();
    // A script's line can hold any bytes.
    for text in input.split(b'\n') {
        counts.outcome(&String::from_utf8_lossy(&text?));
    }
    for refusal in REFUSALS {
        let name = format!("refused {}", refusal);
        writeln!(output, "{} {}", name, counts.get(&name))?;
    }
    for mark in MARKS {
        writeln!(output, "{} {}", mark, counts.get(mark))?;
    }
    for (word, refusals) in CALLS {
        let count = counts.get(&format!("call {}", word));
        write!(output, "{} {}", word, count)?;
        for refusal in refusals {
            let refused = counts.get(&format!("{} {}", word, refusal));
            write!(output, " {}:{}", refusal, refused)?;
        }
        writeln!(output)?;
    }
    output.flush()?;
    let missing = missing(&counts);
    for line in &missing {
        writeln!(lacks, "{}", line)?;
    }
    Ok(missing.is_empty())
}

fn missing(counts: &Counts) -> Vec<String> {
    let mut missing = Vec::new();
    for refusal in REFUSALS {
        if counts.get(&format!("refused {}", refusal)) == 0 {
            missing.push(format!("never: refused {}", refusal));
        }
    }
    for mark in MARKS {
        if counts.get(mark) == 0 {
            missing.push(format!("never: {}", mark));
        }
    }
    for (word, refusals) in CALLS {
        let count = counts.get(&format!("call {}", word));
        if count < LEAST {
            missing.push(format!("too few: {} {}", word, count));
        }
        for refusal in refusals {
            if counts.get(&format!("{} {}", word, refusal)) == 0 {
                missing.push(format!("never: {} refused {}", word, refusal));
            }
        }
    }
    missing
}
