//! Sections whose bytes are known, and one for each refusal.

use super::outcome;
use crate::refusal_numbers::Refusal;
use crate::tables::{
    cyclic_register, cyclic_right, descriptor_at, inner_descriptor, list_programs, list_streams,
    outer_descriptor, program_entry, read_program_table, read_stream_table, stream_entry,
    Descriptor,
};

const PAT: [u8; 16] = [
    0x00, 0xB0, 0x0D, 0x00, 0x01, 0xC1, 0x00, 0x00, 0x00, 0x01, 0xF0, 0x00, 0x2A, 0xB1, 0x04, 0xB2,
];

/// The bytes with the four that make the register end at zero.
fn sealed(bytes: &[u8]) -> Vec<u8> {
    let mut sealed = bytes.to_vec();
    sealed.extend(cyclic_register(bytes).to_be_bytes());
    sealed
}

/// A PMT with one descriptor of two bytes, and two entries, the second with two descriptors.
fn stream_section() -> Vec<u8> {
    sealed(&[
        0x02, 0xB0, 0x22, 0x12, 0x34, 0xC3, 0x00, 0x00, 0xE1, 0x00, 0xF0, 0x04, 0x05, 0x02, 0xAA,
        0xBB, 0x1B, 0xE1, 0x01, 0xF0, 0x00, 0x0F, 0xE1, 0x02, 0xF0, 0x07, 0x0A, 0x03, 0x64, 0x65,
        0x75, 0x52, 0x00,
    ])
}

#[test]
fn cyclic_examples() {
    assert_eq!(cyclic_register(b"123456789"), 0x0376_E6E7);
    assert!(cyclic_right(&PAT));
    assert!(!cyclic_right(&PAT[..15]));
    assert!(!cyclic_right(&[]));
}

#[test]
fn the_known_program_table() {
    let table = read_program_table(&PAT).unwrap();
    assert_eq!((table.common.id, table.common.version), (1, 0));
    assert_eq!(table.common.current, 1);
    assert_eq!((table.common.number, table.common.last), (0, 0));
    assert_eq!(table.entries, [(1, 0x1000)]);
    assert_eq!(program_entry(&PAT, 0), Ok((1, 0x1000)));
    assert_eq!(program_entry(&PAT, 1), Err(Refusal(27)));
}

#[test]
fn lists_are_judged_before_the_section() {
    assert_eq!(list_programs(&PAT, 253, 253), read_program_table(&PAT));
    assert_eq!(list_programs(&PAT, 252, 253), Err(Refusal(3)));
    assert_eq!(list_programs(&[], 253, 252), Err(Refusal(3)));
    assert_eq!(list_programs(&[], 253, 253), Err(Refusal(20)));
    let section = stream_section();
    assert_eq!(
        list_streams(&section, [201; 4]),
        read_stream_table(&section)
    );
    assert_eq!(
        list_streams(&section, [201, 201, 201, 200]),
        Err(Refusal(3))
    );
    assert_eq!(list_streams(&[], [200, 201, 201, 201]), Err(Refusal(3)));
    assert_eq!(list_streams(&[], [201; 4]), Err(Refusal(20)));
}

#[test]
fn a_loop_is_walked_by_its_places() {
    let bytes = [0x0A, 0x03, 0x64, 0x65, 0x75, 0x52, 0x00];
    let found = |place| descriptor_at(&bytes, place).map(|d| (d.tag, d.start, d.size));
    assert_eq!(found(0), Ok((0x0A, 2, 3)));
    assert_eq!(found(5), Ok((0x52, 7, 0)));
    assert_eq!(found(7), Err(Refusal(27)));
    assert_eq!(found(u64::MAX), Err(Refusal(27)));
    assert_eq!(found(6), Err(Refusal(26)));
    assert_eq!(found(1), Err(Refusal(26)));
}

#[test]
fn a_stream_table() {
    let section = stream_section();
    let mut length = section.clone();
    length[2] = (section.len() - 3) as u8;
    assert_eq!(length, section);
    let table = read_stream_table(&section).unwrap();
    assert_eq!((table.common.id, table.common.version), (0x1234, 1));
    assert_eq!(table.clock_pid, 0x100);
    assert_eq!((table.outer.descriptors.len(), table.streams.len()), (1, 2));
    assert_eq!((table.outer.start, table.outer.size), (12, 4));
    let second = stream_entry(&section, 1).unwrap();
    assert_eq!((second.kind, second.pid), (0x0F, 0x102));
    assert_eq!((second.inner.start, second.inner.size), (26, 7));
    let descriptor = |tag, start, size| Ok(Descriptor { tag, start, size });
    assert_eq!(outer_descriptor(&section, 0), descriptor(5, 14, 2));
    assert_eq!(outer_descriptor(&section, 1), Err(Refusal(27)));
    assert_eq!(inner_descriptor(&section, 1, 0), descriptor(0x0A, 28, 3));
    assert_eq!(inner_descriptor(&section, 1, 1), descriptor(0x52, 33, 0));
    assert_eq!(inner_descriptor(&section, 1, 2), Err(Refusal(27)));
    assert_eq!(inner_descriptor(&section, 0, 0), Err(Refusal(27)));
    assert_eq!(inner_descriptor(&section, 2, 0), Err(Refusal(27)));
}

fn program_refusal(section: &[u8]) -> u32 {
    read_program_table(section).map_or_else(|refusal| refusal.0, |_| 0)
}

#[test]
fn program_table_refusals() {
    let changed = |place: usize, value: u8| {
        let mut bytes = PAT[..12].to_vec();
        bytes[place] = value;
        sealed(&bytes)
    };
    assert_eq!(program_refusal(&PAT[..2]), 20);
    assert_eq!(program_refusal(&PAT[..15]), 20);
    assert_eq!(program_refusal(&changed(0, 1)), 23);
    assert_eq!(program_refusal(&changed(1, 0x30)), 21);
    assert_eq!(program_refusal(&changed(1, 0xF0)), 21);
    assert_eq!(program_refusal(&sealed(&[0, 0xB0, 8, 0, 1, 0xC1, 0])), 25);
    let mut long = vec![0, 0xB3, 0xFE];
    long.resize(1_021, 0);
    assert_eq!(program_refusal(&sealed(&long)), 25);
    let mut wrong = PAT;
    wrong[15] += 1;
    assert_eq!(program_refusal(&wrong), 22);
    assert_eq!(program_refusal(&changed(6, 1)), 24);
    assert_eq!(program_refusal(&changed(7, 1)), 0);
    let odd = [0, 0xB0, 10, 0, 1, 0xC1, 0, 0, 0];
    assert_eq!(program_refusal(&sealed(&odd)), 26);
    assert_eq!(program_refusal(&[0x00, 0x0F, 0xFE]), 20);
}

fn stream_refusal(place: usize, value: u8) -> u32 {
    let mut bytes = stream_section();
    bytes.truncate(33);
    bytes[place] = value;
    read_stream_table(&sealed(&bytes)).map_or_else(|refusal| refusal.0, |_| 0)
}

#[test]
fn stream_table_refusals() {
    assert_eq!(stream_refusal(6, 1), 24);
    assert_eq!(stream_refusal(7, 1), 24);
    assert_eq!(stream_refusal(10, 0x04), 26);
    assert_eq!(stream_refusal(10, 0x08), 26);
    assert_eq!(stream_refusal(10, 0x00), 0);
    assert_eq!(stream_refusal(11, 3), 26);
    assert_eq!(stream_refusal(13, 1), 26);
    assert_eq!(stream_refusal(25, 6), 26);
    assert_eq!(stream_refusal(25, 8), 26);
    assert_eq!(stream_refusal(32, 1), 26);
    let short = sealed(&[2, 0xB0, 12, 0, 1, 0xC1, 0, 0, 0xE0, 0, 0xF0]);
    assert_eq!(read_stream_table(&short), Err(Refusal(25)));
}

#[test]
fn the_longest_tables() {
    let mut programs = vec![0, 0xB3, 0xFD, 0, 1, 0xC1, 0, 0];
    programs.resize(1_020, 0xE0);
    let table = read_program_table(&sealed(&programs)).unwrap();
    assert_eq!(table.entries.len(), 253);
    let mut streams = vec![2, 0xB3, 0xFA, 0, 1, 0xC1, 0, 0, 0xE0, 0, 0xF0, 0];
    for _ in 0..201 {
        streams.extend([0x1B, 0xE1, 0x00, 0xF0, 0x00]);
    }
    let table = read_stream_table(&sealed(&streams)).unwrap();
    assert_eq!(table.streams.len(), 201);
}

#[test]
fn pes_headers() {
    let examples = [
        ("=0000010000", "refused 30"),
        ("=000002e00003", "refused 31"),
        ("=000001bb0003", "refused 32"),
        ("=000001bd0000", "refused 37"),
        ("=000001be0000", "refused 37"),
        ("=000001be0001", "bare 190 1"),
        ("=000001e000038000", "refused 30"),
        ("=000001e00003400000", "refused 33"),
        ("=000001e00003804000", "refused 34"),
        ("=000001e00003800100", "refused 35"),
        ("=000001e00003800001", "refused 35"),
        ("=000001e00004800001", "refused 30"),
        ("=000001e00003800000", "full 224 3 0 0 0 0 0 0 0 stamps -"),
        ("=000001e00000803f0e", "refused 30"),
    ];
    for (bytes, rest) in examples {
        let line = format!("pes {}", bytes);
        assert_eq!(outcome(&line), format!("pes {}", rest));
    }
}

#[test]
fn the_ids_of_pes_headers() {
    for id in 0..=255 {
        let answer = match id {
            0..=0xBB => String::from("refused 32"),
            0xF2 => String::from("refused 38"),
            0xBC | 0xBE | 0xBF | 0xF0 | 0xF1 | 0xF8 | 0xFF => format!("bare {} 3", id),
            _ => format!("full {} 3 0 0 0 0 0 0 0 stamps -", id),
        };
        let line = format!("pes =000001{:02x}0003800000", id);
        assert_eq!(outcome(&line), format!("pes {}", answer));
    }
}

#[test]
fn pes_stamps() {
    let examples = [
        ("80052100 05bf21", "full 224 0 5 0 0 0 0 0 0 stamps 90000"),
        ("80053100 05bf21", "refused 36"),
        ("80052000 05bf21", "refused 36"),
        (
            "c00a3100 05bf21 11000100 01",
            "full 224 0 10 0 0 0 0 0 0 stamps 90000 0",
        ),
        ("c00a2100 05bf21 11000100 01", "refused 36"),
        ("c00a3100 05bf21 21000100 01", "refused 36"),
        ("c0093100 05bf21 11000100", "refused 35"),
    ];
    for (bytes, rest) in examples {
        let line = format!("pes =000001e0000080{}", bytes.replace(' ', ""));
        assert_eq!(outcome(&line), format!("pes {}", rest));
    }
}
