//! Lines that are not as a script's lines are, among lines that are.

mod rows;

use super::random::Random;
use super::script::{field, Script};
use crate::exercise::LINES;
use rows::{crowd, ending, look};

pub fn generate(random: &mut Random, script: &mut Script) {
    let line = if random.one_in(20) {
        counted_line(random)
    } else {
        any_line(random)
    };
    script.text.extend(line);
    script.text.push(b'\n');
    script.calls += 1;
    if random.one_in(20) {
        script.call("close 0");
        script.set_up("digest");
        script.set_up("fresh");
        look(script);
    }
    match random.below(40) {
        0 => crowd(random, script),
        1 | 2 => ending(random, script),
        _ => {}
    }
}

/// The words whose lines requests gave more numbers, or that came with one.
const COUNTED: [&str; 10] = [
    "area", "place", "list", "open", "packet", "rate", "rerate", "clear", "arrive", "judge",
];

/// A line of such a word with one number too few, as many as it has or one too many; the last is small, at its limit or past it, and at times bytes are missing or too much.
fn counted_line(random: &mut Random) -> Vec<u8> {
    let lines = LINES.iter().filter(|line| COUNTED.contains(&line.0));
    let shapes: Vec<_> = lines.collect();
    let (word, ranges, with_bytes) = *random.pick(&shapes);
    let mut fields = vec![String::from(word)];
    let many = random.between(ranges.len().saturating_sub(1), ranges.len() + 1);
    for _ in 1..many {
        fields.push(random.below(2).to_string());
    }
    if many > 0 {
        let limit = ranges.last().map_or(0, |limit| u128::from(*limit));
        fields.push(random.pick(&[0, 1, 2, limit, limit + 1]).to_string());
    }
    if with_bytes != random.one_in(8) {
        fields.push(field(&random.bytes(4)));
    }
    fields.join(" ").into_bytes()
}

/// A line of any word, right or with something wrong.
fn any_line(random: &mut Random) -> Vec<u8> {
    // The line of an area has the most numbers, so it comes more often than the others.
    let shape = if random.one_in(10) {
        1
    } else {
        random.below(LINES.len())
    };
    let (word, ranges, with_bytes) = LINES[shape];
    let mut fields = vec![String::from(word)];
    for highest in ranges {
        fields.push(number(random, *highest));
    }
    if with_bytes {
        let size = bytes_size(random, word);
        fields.push(field(&random.bytes(size)));
    }
    match random.below(6) {
        0 | 1 => fields.join(" ").into_bytes(),
        2 if !ranges.is_empty() => {
            let index = random.below(ranges.len());
            fields[1 + index] = wrong_number(random, ranges[index]);
            fields.join(" ").into_bytes()
        }
        _ => malformed(random, fields),
    }
}

/// A number in its range, at times with zeros before it.
fn number(random: &mut Random, highest: u64) -> String {
    let number = match random.below(6) {
        0 => highest,
        1 => random.next() % 2,
        _ if highest == u64::MAX => random.next(),
        _ => random.next() % (highest + 1),
    };
    match random.below(12) {
        0 => format!("{:020}", number),
        1 if number < u64::MAX / 10 => format!("0{}", number),
        _ => number.to_string(),
    }
}

/// A number past its range, or one of too many digits.
fn wrong_number(random: &mut Random, highest: u64) -> String {
    let past = u128::from(highest) + 1;
    let far = random.pick(&[65_536, 1 << 32, (1 << 64) - 1, 1 << 64]);
    match random.below(4) {
        0 => format!("{:021}", random.below(highest as usize)),
        1 => past.max(far).to_string(),
        _ => past.to_string(),
    }
}

fn bytes_size(random: &mut Random, word: &str) -> usize {
    match random.below(300) {
        0 => 8_192,
        1 => 8_193,
        2 => random.between(8_194, 9_000),
        3..=60 if word == "packet" || word == "alone" => 188,
        _ => random.below(12),
    }
}

/// The line with one thing wrong, most times.
fn malformed(random: &mut Random, mut fields: Vec<String>) -> Vec<u8> {
    let some = random.below(fields.len());
    match random.below(12) {
        0 => fields.push(random.pick(&["1", "=", "", "=00", "x"]).to_string()),
        1 => {
            fields.pop();
        }
        2 => fields.reverse(),
        3 => fields.swap(some, 0),
        4 => fields[some].clear(),
        5 => fields[some].insert(0, random.pick(&['=', '0', ' ', '+', '-', '_'])),
        6 => fields[some].push(random.pick(&['=', '0', ' ', 'g', 'a', '.'])),
        7 => fields[some] = fields[some].to_uppercase(),
        8 => fields[0] = word(random),
        9 => {
            fields[some] = random
                .pick(&["=0", "=0A", "=zz", "=00=00", "0x10"])
                .to_string()
        }
        _ => return spoilt_bytes(random, fields.join(" ").into_bytes()),
    }
    fields.join(" ").into_bytes()
}

fn word(random: &mut Random) -> String {
    let words = [
        "packets",
        "setstampx",
        "anystam",
        "anystamps",
        "abcdefgh",
        "abcdefghi",
        "Fresh",
        "p",
        "pi",
        "pidd",
        "rates",
        "rerat",
        "clea",
        "arrives",
        "judg",
    ];
    random.pick(&words).to_string()
}

/// A byte put in, taken out or changed somewhere; never a line end.
fn spoilt_bytes(random: &mut Random, mut line: Vec<u8>) -> Vec<u8> {
    let at = random.below(line.len());
    let odd = random.pick(&[0x00, 0x0D, 0x09, 0x20, 0x7F, 0x80, 0xC3, 0xFF, b'=', b'A']);
    match random.below(7) {
        0 => line.clear(),
        1 => line.push(b'\r'),
        2 => line.push(odd),
        3 => line[at] = odd,
        4 => line.insert(at, odd),
        5 => {
            line.remove(at);
        }
        _ => line.insert(0, odd),
    }
    line
}
