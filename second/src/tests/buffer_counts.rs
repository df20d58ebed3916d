//! What coverage counts in verdicts, with the rows that lines make.

use crate::coverage::Counts;
use crate::exercise::Exercise;

const MARKS: [&str; 6] = ["passes", "overruns", "lingers", "back70", "brim", "both"];

/// The counts of some outcomes and their lines.
fn counted(texts: &[String]) -> [u64; 6] {
    let mut counts = Counts::default();
    texts.iter().for_each(|text| counts.outcome(text));
    MARKS.map(|mark| counts.get(mark))
}

/// Each line of a script behind its outcome and a tab.
fn beside(lines: &[&str]) -> Vec<String> {
    let mut exercise = Exercise::new();
    let text = |line: &&str| format!("{}\t{}", exercise.answer(line.as_bytes()), line);
    lines.iter().map(text).collect()
}

#[test]
fn verdicts_are_counted_with_what_their_rows_tell() {
    let fill = "arrive 0 20304 1328 5";
    let cases: [(&[&str], [u64; 6]); 16] = [
        (&[], [1, 0, 0, 0, 0, 0]),
        (&["arrive 0 0 3 5"], [0, 1, 0, 0, 0, 0]),
        (&["arrive 0 20303 1330 5"], [0, 0, 1, 0, 0, 0]),
        (&["arrive 0 2808 3 5"], [1, 0, 0, 0, 1, 0]),
        (&["arrive 0 2808 4 5"], [0, 1, 0, 0, 1, 0]),
        (&["arrive 0 2807 4 5"], [0, 1, 0, 0, 0, 0]),
        (
            &["arrive 0 0 3 5", "arrive 25920 0 1 5"],
            [0, 1, 0, 0, 0, 0],
        ),
        (&["arrive 27000000 2808 3 5"], [1, 0, 0, 0, 1, 0]),
        (&["arrive 0 0 1 6", "arrive 0 5616 2 5"], [1, 0, 0, 0, 0, 0]),
        (&["arrive 9 0 3 5", "arrive 8 0 1 5"], [0, 0, 0, 1, 0, 0]),
        (&["arrive 9 0 2 5", "arrive 8 0 3 5"], [0; 6]),
        (&["arrive 0 2808 3 5", "arrive 0 0 1 5"], [0; 6]),
        (
            &["arrive 0 0 1 5", fill, "arrive 26943407 0 1 5"],
            [0, 0, 0, 0, 0, 0],
        ),
        (
            &["arrive 0 0 1 5", fill, "arrive 26949024 0 1 5"],
            [0, 0, 1, 0, 1, 0],
        ),
        (
            &["arrive 0 0 1 5", fill, "arrive 26949023 0 1 5"],
            [0, 1, 0, 0, 0, 1],
        ),
        (
            &["arrive 0 0 2 5", fill, "arrive 26949023 0 1 5"],
            [0, 1, 0, 0, 0, 0],
        ),
    ];
    for (row, expected) in cases {
        let lines = [row, &["judge 5"]].concat();
        assert_eq!(counted(&beside(&lines)), expected, "{:?}", lines);
        let between = ["arrive 3 0 2 6", "arrive 0 0 2049 5", "clear 5", "fresh"];
        let more = [&["arrive 7 0 5 5", "clear"], row, &between, &["judge 5"]].concat();
        assert_eq!(counted(&beside(&more)), expected, "{:?}", more);
    }
}

#[test]
fn a_row_that_is_not_known_has_no_marks() {
    let lines = ["arrive 0 2808 2 5", "arrive 5616 0 1 5", "judge 5"];
    let texts = beside(&lines);
    assert_eq!(counted(&texts), [1, 0, 0, 0, 1, 0]);
    let alone: Vec<String> = texts
        .iter()
        .map(|text| text.split('\t').next().unwrap().to_string())
        .collect();
    assert_eq!(counted(&alone), [1, 0, 0, 0, 0, 0]);
    for missing in 0..2 {
        let mut part = texts.clone();
        part[missing] = alone[missing].clone();
        assert_eq!(counted(&part), [1, 0, 0, 0, 0, 0], "{}", missing);
        part.remove(missing);
        assert_eq!(counted(&part), [1, 0, 0, 0, 0, 0], "{}", missing);
    }
    // A row that begins anew, as in the next script.
    let twice = [&texts[..1], &texts].concat();
    assert_eq!(counted(&twice), [1, 0, 0, 0, 1, 0]);
}
