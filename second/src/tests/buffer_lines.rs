//! The row of records: what lines bring to it, and which of them kind `bad` writes.

use super::buffer::LAST;
use super::{outcome, outcomes};
use crate::exercise;
use crate::generate;

/// The outcome of a line that brings records to an empty row.
fn arrived(first: u64, step: u64, count: u64) -> String {
    outcome(&format!("arrive {} {} {} 5", first, step, count))
}

#[test]
fn a_line_ends_with_the_last_tick_or_is_bad() {
    let half = 1 << 63;
    let cases = [
        (LAST, 0, 2_048),
        (LAST - 1, 1, 2),
        (LAST - 2_047, 1, 2_048),
        (0, LAST, 2),
        (1, LAST - 1, 2),
        (LAST - 2 * (half - 1), half - 1, 3),
        (half - 1, 1 << 53, 1_025),
    ];
    for (first, step, count) in cases {
        let told = format!("arrive {}", count);
        assert_eq!(arrived(first, step, count), told, "{}", first);
        if first < LAST {
            assert_eq!(arrived(first + 1, step, count), "bad", "{}", first);
        }
        if count < 2_048 && step > 0 {
            assert_eq!(arrived(first, step, count + 1), "bad", "{}", first);
        }
    }
    assert_eq!(arrived(0, half, 3), "bad");
    assert_eq!(arrived(LAST, LAST, 2_048), "bad");
}

#[test]
fn one_record_or_none_may_have_any_step() {
    for first in [0, 1, LAST] {
        for step in [0, 1, LAST] {
            assert_eq!(arrived(first, step, 1), "arrive 1");
            assert_eq!(arrived(first, step, 0), "arrive 0");
        }
    }
}

#[test]
fn a_line_fits_in_the_row_whole_or_is_bad() {
    let pairs = [
        ("arrive 0 0 2000 6", "arrive 2000"),
        ("arrive 0 0 49 6", "bad"),
        ("arrive 0 0 2049 6", "bad"),
        ("arrive 0 0 18446744073709551615 6", "bad"),
        ("arrive 18446744073709551615 1 2 6", "bad"),
        ("arrive 0 0 46 6", "arrive 2046"),
        ("arrive 0 0 3 5", "bad"),
        ("arrive 0 0 2 5", "arrive 2048"),
        ("arrive 0 0 1 5", "bad"),
        ("arrive 0 0 0 5", "arrive 2048"),
        ("judge 5", "judge passes"),
        ("judge 6", "judge overruns 2"),
        ("fresh", "fresh next 1"),
        ("arrive 1 1 0 5", "arrive 2048"),
        ("clear", "clear"),
        ("judge 6", "judge passes"),
        ("arrive 0 0 2048 5", "arrive 2048"),
        ("judge 5", "judge overruns 2"),
    ];
    let lines = pairs.map(|(line, _)| line);
    for (told, (line, expected)) in outcomes(&lines).iter().zip(pairs) {
        assert_eq!(told, expected, "{}", line);
    }
}

#[test]
fn records_have_the_ticks_and_the_pid_of_their_line() {
    let brings = |lines: [&str; 2], told: &str| {
        let all = ["arrive 7 0 2 5", lines[0], lines[1], "judge 5"];
        assert_eq!(outcomes(&all)[3], told, "{:?}", lines);
    };
    brings(["arrive 5623 0 1 5", "arrive 0 0 1 6"], "judge passes");
    brings(["arrive 5622 0 1 5", "arrive 0 0 1 6"], "judge overruns 2");
    brings(["arrive 0 0 1 6", "arrive 5622 0 1 5"], "judge overruns 3");
    brings(
        ["arrive 6 5000 2 6", "arrive 5623 1 2 5"],
        "judge overruns 5",
    );
    brings(
        ["arrive 7 5616 0 5", "arrive 5623 20304 1000 5"],
        "judge passes",
    );
    brings(
        ["arrive 5623 20304 9 5", "arrive 7 0 1 5"],
        "judge refused 70",
    );
    brings(
        ["arrive 5622 0 1 65535", "arrive 5622 0 1 4"],
        "judge passes",
    );
}

/// A field that is a number, in its range or past it.
fn number(field: &str) -> Option<u128> {
    let digits = field.bytes().all(|byte| byte.is_ascii_digit());
    field.parse().ok().filter(|_| digits && field.len() <= 20)
}

/// A line of kind `bad` with numbers alone, its outcome and the row's size before it.
struct Line {
    word: String,
    numbers: Vec<u128>,
    told: String,
    size: u128,
}

fn bad_lines() -> Vec<Line> {
    let (mut script, mut output) = (Vec::new(), Vec::new());
    generate::run("bad", 1, 10_000, &mut script).unwrap();
    exercise::run(&mut &*script, &mut output).unwrap();
    // A script's line can hold any bytes.
    let [script, output] = [script, output].map(|text| String::from_utf8_lossy(&text).into_owned());
    let (mut size, mut lines) = (0, Vec::new());
    for (line, told) in script.split('\n').zip(output.lines()) {
        let (word, rest) = line.split_at(line.find(' ').unwrap_or(line.len()));
        if let Some(numbers) = rest.split(' ').skip(1).map(number).collect() {
            let [word, told] = [word, told].map(String::from);
            lines.push(Line {
                word,
                numbers,
                told,
                size,
            });
        }
        size = match told.strip_prefix("arrive ") {
            Some(told) => told.parse().unwrap(),
            None if told == "clear" => 0,
            None => size,
        };
    }
    lines
}

#[test]
fn kind_bad_fills_the_row_and_goes_up_to_the_last_tick() {
    let [mut full, mut past_row, mut last, mut past_last] = [0; 4];
    for line in bad_lines().iter().filter(|line| line.word == "arrive") {
        let (first, step, count) = match line.numbers[..] {
            [first, step, count, 0..=65_535] if count > 1 => (first, step, count),
            _ => continue,
        };
        let end = first + step * (count - 1);
        let room = 2_048 - line.size;
        let fits = count <= room && end < 1 << 64;
        assert_eq!(line.told == "bad", !fits, "{:?}", line.numbers);
        full += usize::from(fits && count == room);
        past_row += usize::from(end < 1 << 64 && count == room + 1);
        last += usize::from(fits && end == (1 << 64) - 1);
        past_last += usize::from(count <= room && end == 1 << 64 && step > 0);
    }
    let counts = [full, past_row, last, past_last];
    assert!(counts.iter().min() > Some(&20), "{:?}", counts);
}

#[test]
fn kind_bad_has_numbers_too_few_too_many_and_too_high() {
    let lines = bad_lines();
    // Each word with how many numbers come behind it, and whether that is bad.
    let cases = [
        ("clear", 0, false),
        ("clear", 1, true),
        ("arrive", 3, true),
        ("arrive", 4, false),
        ("arrive", 5, true),
        ("judge", 0, true),
        ("judge", 1, false),
        ("judge", 2, true),
    ];
    for (word, many, bad) in cases {
        let own = lines.iter().filter(|line| line.word == word);
        let found: Vec<&Line> = own.filter(|line| line.numbers.len() == many).collect();
        assert!(found.len() > 10, "{} {} {}", word, many, found.len());
        let all = found.iter().all(|line| line.told == "bad");
        assert_eq!(all, bad, "{} {}", word, many);
    }
    for (pid, bad) in [(65_535, false), (65_536, true)] {
        let own = lines.iter().filter(|line| line.word == "judge");
        let mut found = own.filter(|line| line.numbers == [pid]);
        assert!(found.clone().count() > 10, "{}", pid);
        assert!(found.all(|line| (line.told == "bad") == bad), "{}", pid);
    }
}
