//! The stamps, references and differences of document 01.

use crate::refusal_numbers::Refusal;
use crate::time::{
    apart, forward, read_any_stamp, read_clock, read_stamp, write_clock, write_stamp, AnyStamp,
};

const LAST_STAMP: u64 = 8_589_934_591;

fn written_stamp(prefix: u64, value: u64) -> Result<[u8; 5], Refusal> {
    let mut bytes = [0; 5];
    write_stamp(prefix, value, &mut bytes).map(|()| bytes)
}

fn written_clock(value: u64) -> Result<[u8; 6], Refusal> {
    let mut bytes = [0; 6];
    write_clock(value, &mut bytes).map(|()| bytes)
}

#[test]
fn stamps() {
    let examples = [
        (2, 0, [0x21, 0x00, 0x01, 0x00, 0x01]),
        (2, 90_000, [0x21, 0x00, 0x05, 0xBF, 0x21]),
        (3, LAST_STAMP, [0x3F, 0xFF, 0xFF, 0xFF, 0xFF]),
    ];
    for (prefix, value, bytes) in examples {
        assert_eq!(written_stamp(prefix, value), Ok(bytes));
        assert_eq!(read_stamp(prefix, &bytes), Ok(value));
    }
    assert_eq!(written_stamp(2, 8_589_934_592), Err(Refusal(40)));
}

#[test]
fn lone_stamps_are_refused_in_order() {
    let right = [0x21, 0x00, 0x01, 0x00, 0x01];
    for prefix in [0, 4, 18, 255] {
        assert_eq!(read_stamp(prefix, &right[..4]), Err(Refusal(40)));
        assert_eq!(written_stamp(prefix, 0), Err(Refusal(40)));
    }
    assert_eq!(read_stamp(3, &right[..4]), Err(Refusal(41)));
    assert_eq!(read_stamp(3, &right), Err(Refusal(36)));
    for marker in [0, 2, 4] {
        let mut wrong = right;
        wrong[marker] -= 1;
        assert_eq!(read_stamp(2, &wrong), Err(Refusal(36)));
    }
    assert_eq!(write_stamp(1, 0, &mut [0; 4]), Err(Refusal(41)));
}

#[test]
fn stamps_behind_any_four_bits() {
    let any = |kind, stamp| Ok(AnyStamp { kind, stamp });
    let examples: [(&[u8], _); 8] = [
        (&[0x0F, 0xFF, 0xFF, 0xFF, 0xFF], any(0, LAST_STAMP)),
        (&[0xF1, 0x00, 0x01, 0x00, 0x01], any(15, 0)),
        (&[0x51, 0x00, 0x05, 0xBF, 0x21, 0x00], any(5, 90_000)),
        (&[0x50, 0x00, 0x05, 0xBF, 0x21], Err(Refusal(36))),
        (&[0x51, 0x00, 0x04, 0xBF, 0x21], Err(Refusal(36))),
        (&[0x51, 0x00, 0x05, 0xBF, 0x20], Err(Refusal(36))),
        (&[0x50, 0x00, 0x05, 0xBF], Err(Refusal(41))),
        (&[], Err(Refusal(41))),
    ];
    for (bytes, expected) in examples {
        assert_eq!(read_any_stamp(bytes), expected);
    }
}

#[test]
fn both_ways_to_read_a_stamp_agree() {
    for value in (0..33).map(|bit| 1 << bit).chain([0, LAST_STAMP]) {
        for kind in 0..16 {
            let mut bytes = written_stamp(1, value).unwrap();
            bytes[0] = bytes[0] % 16 + 16 * kind as u8;
            let stamp = value;
            assert_eq!(read_any_stamp(&bytes), Ok(AnyStamp { kind, stamp }));
            for prefix in 1..=3 {
                let right = if kind == prefix {
                    Ok(value)
                } else {
                    Err(Refusal(36))
                };
                assert_eq!(read_stamp(prefix, &bytes), right);
            }
        }
    }
}

#[test]
fn references() {
    let examples = [
        (27_000_000, [0x00, 0x00, 0xAF, 0xC8, 0x7E, 0x00]),
        (2_576_980_377_599, [0xFF, 0xFF, 0xFF, 0xFF, 0xFF, 0x2B]),
    ];
    for (value, bytes) in examples {
        assert_eq!(written_clock(value), Ok(bytes));
        assert_eq!(read_clock(&bytes), Ok(value));
    }
    let above = [0xFF, 0xFF, 0xFF, 0xFF, 0xFF, 0x2C];
    assert_eq!(read_clock(&above), Err(Refusal(8)));
    assert_eq!(read_clock(&above[..5]), Err(Refusal(41)));
    assert_eq!(written_clock(2_576_980_377_600), Err(Refusal(40)));
    assert_eq!(write_clock(0, &mut [0; 5]), Err(Refusal(41)));
}

#[test]
fn only_the_first_bytes_are_written() {
    let mut bytes = [0xAB; 7];
    assert_eq!(write_stamp(2, 0, &mut bytes), Ok(()));
    assert_eq!(bytes, [0x21, 0x00, 0x01, 0x00, 0x01, 0xAB, 0xAB]);
    assert_eq!(write_clock(0, &mut bytes), Ok(()));
    assert_eq!(bytes, [0x00, 0x00, 0x00, 0x00, 0x7E, 0x00, 0xAB]);
}

#[test]
fn differences() {
    assert_eq!(apart(0, LAST_STAMP), Ok(1));
    assert_eq!(apart(4_294_967_296, 0), Ok(-4_294_967_296));
    assert_eq!(apart(4_294_967_295, 0), Ok(4_294_967_295));
    assert_eq!(apart(8_589_934_592, 0), Err(Refusal(40)));
    assert_eq!(apart(0, 8_589_934_592), Err(Refusal(40)));
    assert_eq!(forward(0, 1), Ok(2_576_980_377_599));
    assert_eq!(forward(5, 3), Ok(2));
    assert_eq!(forward(2_576_980_377_600, 0), Err(Refusal(40)));
    assert_eq!(forward(0, 2_576_980_377_600), Err(Refusal(40)));
}
