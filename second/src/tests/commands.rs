//! The listing, the generators and the count of what outcomes hold.

use super::packet;
use crate::coverage::Counts;
use crate::{exercise, generate, listing};

fn listed(input: &[u8]) -> String {
    let mut output = Vec::new();
    listing::run(&mut &*input, &mut output).unwrap();
    String::from_utf8(output).unwrap()
}

#[test]
fn the_listing_of_document_01() {
    let first = [0x47, 0x40, 0x00, 0x10, 0x00, 0x80, 0x30, 0x01, 0xAA];
    let mut second = first;
    second[0] = 0x46;
    let third = [0x47, 0x40, 0x00, 0x13, 0x00, 0x81, 0x30, 0x00];
    let input = [
        packet(&first, 0xFF),
        packet(&second, 0xFF),
        packet(&third, 0xFF),
    ]
    .concat();
    let lines = [
        "packet\tpid\tword\tnumber\tbytes\n",
        "0\t0\tsection\t128\t4\n",
        "1\t-\trefused\t4\t-\n",
        "2\t0\tjump\t-\t-\n",
        "2\t0\tsection\t129\t3\n",
    ];
    assert_eq!(listed(&input), lines.concat());
    let more = [&input[..], &[0x47]].concat();
    assert_eq!(listed(&more), lines.concat() + "3\t-\trefused\t2\t-\n");
    assert_eq!(listed(&[]), lines[0]);
}

#[test]
fn a_repeat_and_a_cut_are_listed() {
    let first = packet(&[0x47, 0x40, 0x00, 0x10, 182], 0x80);
    let third = packet(&[0x47, 0x40, 0x00, 0x11, 0, 0x80, 0x0F, 0xFE], 0);
    let unwanted = packet(&[0x47, 0x40, 0x01, 0x10], 0);
    let input = [first.clone(), first, unwanted, third].concat();
    let lines = [
        "packet\tpid\tword\tnumber\tbytes\n",
        "1\t0\trepeat\t-\t-\n",
        "3\t0\tcut\t2\t-\n",
    ];
    assert_eq!(listed(&input), lines.concat());
}

#[test]
fn the_listing_of_a_stuck_counter() {
    let packets = include_bytes!("../../examples/request-03.ts");
    let lines = include_str!("../../examples/request-03.list");
    assert_eq!(packets.len(), 1_128);
    assert_eq!(listed(packets), lines);
}

#[test]
fn the_listing_of_extensions() {
    let packets = include_bytes!("../../examples/request-06.ts");
    let lines = include_str!("../../examples/request-06.list");
    assert_eq!(packets.len(), 1_128);
    assert_eq!(listed(packets), lines);
}

fn generated(kind: &str, seed: u64) -> Vec<u8> {
    let mut script = Vec::new();
    generate::run(kind, seed, 400, &mut script).unwrap();
    script
}

#[test]
fn scripts_hang_on_kind_and_seed_alone() {
    for (kind, _) in generate::KINDS {
        assert!(generated(kind, 5) == generated(kind, 5), "{}", kind);
        assert!(generated(kind, 5) != generated(kind, 6), "{}", kind);
    }
    assert!(generate::run("other", 1, 1, &mut Vec::new()).is_err());
}

#[test]
fn only_bad_scripts_have_bad_lines() {
    for (kind, _) in generate::KINDS {
        let mut output = Vec::new();
        exercise::run(&mut &*generated(kind, 7), &mut output).unwrap();
        let output = String::from_utf8(output).unwrap();
        let bad = output.lines().any(|line| line == "bad");
        assert_eq!(bad, kind == "bad", "{}", kind);
    }
}

#[test]
fn outcomes_are_counted() {
    let mut counts = Counts::default();
    counts.outcome("packet wanted 61 183 1 0 2 61 store - output - sets - next 1");
    counts.outcome("packet refused 11 store - output - sets - next 1");
    counts.outcome("bad");
    for name in ["wanted", "sections61", "jump", "cut2", "refused 11", "bad"] {
        assert_eq!(counts.get(name), 1, "{}", name);
    }
    assert_eq!(counts.get("call packet"), 2);
    assert_eq!(counts.get("packet 11"), 1);
    assert_eq!(counts.get("repeat"), 0);
}
