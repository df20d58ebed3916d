//! What coverage counts in the states, sets, extensions and rates that outcomes print.

use crate::coverage::{self, Counts};

/// A state with areas on PIDs 0 and 1, of which the first has the rest of its record given.
fn state(rest: &str) -> String {
    format!(
        "next 3 area 0 0 1 {} area 1 1 1 0 0 0 0 place 0 1 0 256 place 1 2 1 78",
        rest
    )
}

/// How often `repeated` and `stuck` are counted in some outcomes.
fn repeated_and_stuck(outcomes: &[String]) -> (u64, u64) {
    let mut counts = Counts::default();
    outcomes.iter().for_each(|line| counts.outcome(line));
    (counts.get("repeated"), counts.get("stuck"))
}

const JUMP: &str = "packet wanted 0 0 1 0 1 0 store - output - sets -";

#[test]
fn a_stuck_counter_is_counted() {
    let marked = format!("open given 2 1 {}", state("183 1 5 1"));
    let jump = format!("{} {}", JUMP, state("0 1 5 0"));
    let both = [marked.clone(), jump.clone()];
    assert_eq!(repeated_and_stuck(&both), (1, 1));
    for between in ["bad", "store", "digest 1 1", "pid 1"] {
        let lines = [marked.clone(), String::from(between), jump.clone()];
        assert_eq!(repeated_and_stuck(&lines), (1, 1), "{}", between);
    }
    for between in ["area", "place", "next", "fresh next 1"] {
        let lines = [marked.clone(), String::from(between), jump.clone()];
        assert_eq!(repeated_and_stuck(&lines), (1, 0), "{}", between);
    }
    assert_eq!(repeated_and_stuck(&both[1..]), (0, 0));
}

#[test]
fn other_jumps_are_not_stuck() {
    let jump = |rest: &str| format!("{} {}", JUMP, state(rest));
    let marked = jump("183 1 5 1");
    for rest in ["0 1 7 0", "183 1 5 1", "0 1 5 1", "0 0 5 0"] {
        let (_, stuck) = repeated_and_stuck(&[marked.clone(), jump(rest)]);
        assert_eq!(stuck, 0, "{}", rest);
    }
    let lines = [jump("183 1 5 0"), jump("0 1 5 0")];
    assert_eq!(repeated_and_stuck(&lines), (0, 0));
    let other = jump("0 1 5 0").replace("area 1 1 1 0 0 0 0", "area 1 1 1 0 1 0 0");
    assert_eq!(repeated_and_stuck(&[marked.clone(), other]), (1, 0));
    let calm = "packet wanted 0 0 0 0 0 0 store - output - sets -";
    let original = jump("0 1 5 0").replace(JUMP, calm);
    assert_eq!(repeated_and_stuck(&[marked, original]), (1, 0));
}

#[test]
fn sections_begun_are_counted() {
    let cases = [
        ("61 183 0 0 0 61", [1, 0, 0]),
        ("60 180 0 0 0 61", [1, 1, 0]),
        ("60 180 0 0 0 60", [0, 0, 0]),
        ("0 0 0 0 0 1", [0, 0, 1]),
        ("0 0 0 0 1 1", [0, 0, 1]),
        ("0 0 0 0 0 0", [0, 0, 0]),
        ("1 4 0 0 0 2", [0, 0, 0]),
    ];
    for (told, expected) in cases {
        let mut counts = Counts::default();
        counts.outcome(&format!(
            "packet wanted {} store - output - sets - next 1",
            told
        ));
        let found = ["begun61", "part61", "begun"].map(|mark| counts.get(mark));
        assert_eq!(found, expected, "{}", told);
    }
}

#[test]
fn sections_that_nobody_lets_through_are_counted() {
    let cases = [
        ("wanted 2 6 0 0 0 2", "0 1 0 4", 1),
        ("wanted 2 6 0 0 0 2", "1 1 0", 1),
        ("wanted 2 6 0 0 0 2", "0 1 4 1", 0),
        ("wanted 2 6 0 0 0 2", "1 2 4 0", 0),
        ("wanted 2 6 0 0 0 2", "-", 0),
        ("wanted 0 0 0 0 0 0", "0 0 0", 0),
        ("refused 3", "0 0 0", 0),
        ("unwanted", "0 0 0", 0),
    ];
    for (told, sets, expected) in cases {
        let mut counts = Counts::default();
        let state = "next 2 area 0 0 1 0 1 0 0 place 0 1 0 256";
        counts.outcome(&format!(
            "packet {} store - output - sets {} {}",
            told, sets, state
        ));
        assert_eq!(counts.get("nobody"), expected, "{} {}", told, sets);
    }
}

#[test]
fn parts_of_extensions_are_counted() {
    let read = "0 0 256 0 3 0 13 0 0 0 - - - -";
    let cases = [
        ("- - - -", [0, 0, 0, 0]),
        ("7:1 - - -", [0, 0, 0, 1]),
        ("7:3 0:0 - -", [1, 0, 0, 0]),
        ("7:4 - 0 -", [0, 1, 0, 0]),
        ("7:6 - - 0:0", [0, 0, 1, 0]),
        ("7:11 1:4660 2800862 5:90000", [1, 1, 1, 0]),
    ];
    let count = |line: &str, expected: [u64; 4]| {
        let mut counts = Counts::default();
        counts.outcome(line);
        let marks = ["window", "piecewise", "splice", "unflagged"];
        assert_eq!(marks.map(|mark| counts.get(mark)), expected, "{}", line);
    };
    for (told, expected) in cases {
        count(&format!("alone {} {} payload 170 1", read, told), expected);
    }
    count("alone refused 36 payload 0 1", [0; 4]);
    count("pid 7", [0; 4]);
}

#[test]
fn refusals_36_that_nobody_asked_for_are_counted() {
    let used = state("0 1 5 0");
    let cases = [
        ("packet refused 36", "next 1", 1),
        ("packet refused 36", &used, 0),
        ("packet refused 8", "next 1", 0),
        ("packet unwanted", "next 1", 0),
    ];
    for (told, state, expected) in cases {
        let mut counts = Counts::default();
        counts.outcome(&format!("{} store - output - sets - {}", told, state));
        assert_eq!(counts.get("unwanted36"), expected, "{} {}", told, state);
    }
}

/// How often each mark of rates is counted in a text.
fn rate_marks(text: &str) -> [u64; 5] {
    let mut counts = Counts::default();
    counts.outcome(text);
    ["exact", "up", "down", "minus0", "piecewise"].map(|mark| counts.get(mark))
}

#[test]
fn roundings_are_counted_beside_their_lines() {
    let cases = [
        ("4752116579024502784", "188 1 0", [1, 0, 0, 0, 0]),
        ("4833005771537743141", "333599972 7 0", [0, 1, 0, 0, 0]),
        ("4532302378413590880", "1 0 1", [0, 0, 1, 0, 0]),
        // Doubles next to the right ones.
        ("4752116579024502785", "188 1 0", [0, 1, 0, 0, 0]),
        ("4752116579024502783", "188 1 0", [0, 0, 1, 0, 0]),
        ("0", "0 1 0", [0; 5]),
    ];
    for (latest, asked, marks) in cases {
        let told = format!("0 {} 9218868437227405312", latest);
        let first = format!("rate {}\trate {}", told, asked);
        assert_eq!(rate_marks(&first), marks, "{}", first);
        let again = format!("rerate {}\trerate {} {}", told, told, asked);
        assert_eq!(rate_marks(&again), marks, "{}", again);
        let alone = format!("rate {}", told);
        assert_eq!(rate_marks(&alone), [0; 5], "{}", alone);
    }
    assert_eq!(
        rate_marks("rate refused 40\trate 1 1 2576980377600"),
        [0; 5]
    );
    assert_eq!(rate_marks("bad\trate 1 1"), [0; 5]);
}

#[test]
fn a_kept_minus_zero_is_counted() {
    let minus = "9223372036854775808";
    let cases = [
        (format!("{} 0 1", minus), 1),
        (format!("{} 0 {}", minus, minus), 1),
        (format!("0 0 {}", minus), 1),
        (format!("{} 1 1", minus), 0),
        (format!("0 {} 0", minus), 0),
        (String::from("0 0 1"), 0),
    ];
    for (told, expected) in cases {
        let marks = rate_marks(&format!("rerate {}", told));
        assert_eq!(marks, [0, 0, 0, expected, 0], "{}", told);
    }
}

#[test]
fn outcomes_are_counted_with_or_without_their_lines() {
    let texts: [&[u8]; 3] = [
        b"pid 7\npid refused 12\nbad\n",
        b"pid 7\tpid 7\npid refused 12\tpid 8192\nbad\tpid refused 12\n",
        b"pid 7\tpid 7\npid refused 12\tpid 8192\nbad\t\xFF\x00\tpid\r",
    ];
    for text in texts {
        let mut output = Vec::new();
        let whole = coverage::run(&mut &*text, &mut output, &mut Vec::new());
        assert!(!whole.unwrap());
        let output = String::from_utf8(output).unwrap();
        for line in ["refused 12 1", "bad 1", "pid 2 12:1"] {
            assert!(output.lines().any(|found| found == line), "{}", line);
        }
    }
}
