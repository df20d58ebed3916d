//! The published recordings.

use crate::filters_and_areas::open;
use crate::from_payload_to_sections::{packet_call, Answer};
use crate::state::{Choice, State};
use crate::{exercise, generate};

const RECORDING: &str = concat!(
    env!("CARGO_MANIFEST_DIR"),
    "/../recordings/mumudvb_TestDump17.ts"
);

#[test]
fn one_hundred_and_sixty_seven_sections() {
    let bytes = std::fs::read(RECORDING).unwrap();
    let mut state = State::fresh();
    for pid in [0x00, 0x01, 0x10, 0x11, 0x12, 0x14] {
        assert!(open(&mut state, pid, Choice::All).is_ok());
    }
    let mut store = vec![0; 32_768];
    let mut output = vec![0; 4_278];
    let mut list = vec![0; 61];
    let (mut sections, mut jumps) = (0, 0);
    for packet in bytes.chunks(188) {
        let answer = packet_call(&mut state, &mut store, &mut output, &mut list, packet);
        if let Ok(Answer::Wanted(wanted)) = answer {
            sections += wanted.sections;
            jumps += usize::from(wanted.jump);
        }
    }
    assert_eq!((sections, jumps), (167, 7));
}

#[test]
fn a_recording_as_a_script() {
    let (mut script, mut output) = (Vec::new(), Vec::new());
    let bytes = std::fs::read(RECORDING).unwrap();
    generate::recording::run(&bytes, &mut script).unwrap();
    exercise::run(&mut &*script, &mut output).unwrap();
    let output = String::from_utf8(output).unwrap();
    let starting = |start: &str| {
        output
            .lines()
            .filter(|line| line.starts_with(start))
            .count()
    };
    assert_eq!(starting("open given"), 24);
    assert_eq!(starting("packet"), 500);
    assert_eq!(starting("packet wanted"), 500);
    assert_eq!(output.lines().count(), 526);
}
