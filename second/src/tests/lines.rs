//! The lines of a script and their outcomes.

use super::{outcome, outcomes};
use crate::exercise;

/// Every line of the script has the expected outcome.
fn answered(script: &str, expected: &str) {
    let mut output = Vec::new();
    exercise::run(&mut script.as_bytes(), &mut output).unwrap();
    let output = String::from_utf8(output).unwrap();
    let lines = script.lines().zip(output.lines().zip(expected.lines()));
    for (line, (outcome, expected)) in lines {
        assert_eq!(outcome, expected, "{}", line);
    }
    assert_eq!(output, expected);
}

#[test]
fn document_01_as_a_script() {
    answered(
        include_str!("../../examples/document-01.script"),
        include_str!("../../examples/document-01.expected"),
    );
}

#[test]
fn request_02_as_a_script() {
    answered(
        include_str!("../../examples/request-02.script"),
        include_str!("../../examples/request-02.expected"),
    );
}

#[test]
fn request_03_as_a_script() {
    answered(
        include_str!("../../examples/request-03.script"),
        include_str!("../../examples/request-03.expected"),
    );
}

#[test]
fn request_06_as_a_script() {
    answered(
        include_str!("../../examples/request-06.script"),
        include_str!("../../examples/request-06.expected"),
    );
}

#[test]
fn request_07_as_a_script() {
    answered(
        include_str!("../../examples/request-07.script"),
        include_str!("../../examples/request-07.expected"),
    );
}

#[test]
fn request_08_as_a_script() {
    answered(
        include_str!("../../examples/request-08.script"),
        include_str!("../../examples/request-08.expected"),
    );
}

#[test]
fn request_10_as_a_script() {
    answered(
        include_str!("../../examples/request-10.script"),
        include_str!("../../examples/request-10.expected"),
    );
}

#[test]
fn request_12_as_a_script() {
    answered(
        include_str!("../../examples/request-12.script"),
        include_str!("../../examples/request-12.expected"),
    );
}

#[test]
fn request_13_as_a_script() {
    answered(
        include_str!("../../examples/request-13.script"),
        include_str!("../../examples/request-13.expected"),
    );
}

const MALFORMED: [&str; 76] = [
    "",
    " ",
    "Open 1 2",
    "open",
    "open ",
    "open 1",
    "open  1 2",
    "open 1 2 ",
    " open 1 2",
    "open 1 2 3",
    "open =01 2",
    "open 1 =02",
    "open 65536 2",
    "open 1 257",
    "open 1 000000000000000000002",
    "open +1 2",
    "open 1 2\r",
    "close",
    "close 1 2",
    "apart 18446744073709551616 0",
    "area 8 0 0 0 0 0 0",
    "area 0 0 0 0 256 0 0",
    "area 0 0 0 65536 0 0 0",
    "area 0 0 0 0 0 0 256",
    "area 0 0 0 0 0 0",
    "area 0 0 0 0 0 0 0 0",
    "place 0 0 0",
    "place 0 0 0 0 0",
    "place 0 0 0 65536",
    "list 0",
    "list 0 0 0",
    "list 128 0",
    "list 0 4294967296",
    "store 40960 =00",
    "store 40961 =",
    "store 18446744073709551615 =00",
    "output 8192 =00",
    "packet 40961 0 0 =",
    "packet 0 8193 0 =",
    "packet 0 0 129 =",
    "packet 0 0 =",
    "packet 0 0 0 0 =",
    "crc =0",
    "crc =0A",
    "crc 00",
    "crc = ",
    "pat =00 1",
    "fresh 1",
    "setstampx 1 1 =",
    "anystamp",
    "anystamp 1 =",
    "anystamps =",
    "rate",
    "rate 188 1",
    "rate 188 1 0 0",
    "rate 188 1 0 =",
    "rate 18446744073709551616 1 0",
    "rerate 0 0 0 188 1",
    "rerate 0 0 0 188 1 0 0",
    "rerate 0 0 0 188 1 0 =00",
    "rerate -0 0 0 188 1 0",
    "clear 0",
    "clear =",
    "arrive",
    "arrive 0 0 1",
    "arrive 0 0 1 0 0",
    "arrive 0 0 1 0 =",
    "arrive 0 0 1 65536",
    "arrive 0 0 2049 0",
    "arrive 18446744073709551616 0 0 0",
    "arrive 0 18446744073709551616 0 0",
    "arrive 0 0 18446744073709551616 0",
    "judge",
    "judge 0 0",
    "judge 0 =",
    "judge 65536",
];

#[test]
fn malformed_lines() {
    for line in MALFORMED {
        assert_eq!(outcome(line), "bad", "{:?}", line);
    }
    assert_eq!(outcome(&format!("crc ={}", "0".repeat(16_386))), "bad");
    assert_eq!(
        outcome(&format!("crc ={}", "0".repeat(16_384))),
        "crc wrong"
    );
}

#[test]
fn lines_at_their_limits() {
    let pairs = [
        ("open 00000000000000008191 255", "open refused 12 next 1"),
        ("open 8190 00000000000000000255", "open refused 17 next 1"),
        (
            "open 0 256",
            "open given 1 0 next 2 area 0 0 1 0 0 0 0 place 0 1 0 256",
        ),
        ("apart 18446744073709551615 0", "apart refused 40"),
        ("store 40960 =", "store"),
        ("output 8191 =ff", "output"),
        ("next 4294967295", "next"),
        ("area 7 65535 255 65535 255 255 255", "area"),
        ("place 31 65535 255 65535", "place"),
        ("list 127 4294967295", "list"),
        (
            "packet 40960 8192 128 =",
            "packet refused 3 store - output - sets - next 1",
        ),
        ("alone =", "alone refused 2 payload 0 1"),
        ("crc =", "crc wrong"),
        ("anystamp =", "anystamp refused 41"),
        (
            "rate 18446744073709551615 18446744073709551615 18446744073709551615",
            "rate refused 40",
        ),
        ("rate 18446744073709551615 1 0", "rate refused 80"),
        (
            "rerate 0 0 18446744073709551615 188 1 0",
            "rerate refused 82",
        ),
        ("clear", "clear"),
        ("arrive 0 0 2048 65535", "arrive 2048"),
        ("judge 65535", "judge passes"),
    ];
    for (line, expected) in pairs {
        assert_eq!(outcome(line), expected);
    }
}

#[test]
fn records_are_told_as_they_are_set() {
    let told = outcomes(&["area 7 65535 255 9 1 255 254", "close 0"]);
    let state = "next 1 area 7 65535 255 9 1 255 254";
    assert_eq!(told[1], format!("close refused 1 {}", state));
    let told = outcomes(&["area 7 0 0 0 0 0 1", "close 0"]);
    assert_eq!(told[1], "close refused 1 next 1 area 7 0 0 0 0 0 1");
    for record in [
        "3 0 0 0",
        "3 0 0 255",
        "3 0 0 257",
        "3 9 8 256",
        "3 0 1 256",
    ] {
        let line = format!("place {}", record);
        let told = outcomes(&[&line, "close 0"]);
        assert_eq!(told[1], format!("close refused 1 next 1 place {}", record));
    }
    let told = outcomes(&["place 3 0 0 256", "close 0"]);
    assert_eq!(told[1], "close refused 16 next 1");
}

#[test]
fn the_last_line_needs_no_end() {
    let run = |script: &[u8]| {
        let mut output = Vec::new();
        exercise::run(&mut &*script, &mut output).unwrap();
        String::from_utf8(output).unwrap()
    };
    assert_eq!(run(b""), "");
    assert_eq!(run(b"\n"), "bad\n");
    assert_eq!(run(b"pid 1"), "pid 1\n");
    assert_eq!(run(b"pid 1\n"), "pid 1\n");
    assert_eq!(run(b"\xff\x00\npid 1"), "bad\npid 1\n");
}
