//! Document 01, "Time", with request 6 of document 02.

use crate::bits::Bits;
use crate::bytes::number_in;
use crate::numbers_of_the_house::{CLOCK_TURN, STAMP_TURN};
use crate::refusal_numbers::{demand, Refusal};

pub const STAMP_BYTES: usize = 5;
pub const CLOCK_BYTES: usize = 6;

/// The widths of a stamp field's pieces: four bits that are no part of the stamp, then three pieces of it, each with its marker.
pub const STAMP_WIDTHS: [usize; 7] = [4, 3, 1, 15, 1, 15, 1];

/// What a stamp field says, without a word on whether it is right.
#[derive(Clone, Copy)]
pub struct StampField {
    pub prefix: u64,
    pub markers: bool,
    pub value: u64,
}

/// A stamp and the four bits before it, whatever they are.
#[derive(Clone, Copy, Debug, PartialEq, Eq)]
pub struct AnyStamp {
    pub kind: u64,
    pub stamp: u64,
}

impl StampField {
    pub fn of(pieces: [u64; 7]) -> StampField {
        let [prefix, high, first, middle, second, low, third] = pieces;
        StampField {
            prefix,
            markers: [first, second, third] == [1; 3],
            value: (high * 32_768 + middle) * 32_768 + low,
        }
    }

    /// What the field says behind any four bits, refused where a marker is 0.
    pub fn any(self) -> Result<AnyStamp, Refusal> {
        demand(self.markers, 36)?;
        Ok(AnyStamp {
            kind: self.prefix,
            stamp: self.value,
        })
    }
}

fn lone_field(bytes: &[u8]) -> Result<StampField, Refusal> {
    let pieces = Bits::of(bytes, 41).cut(STAMP_WIDTHS)?;
    Ok(StampField::of(pieces))
}

fn stamp_prefix(prefix: u64) -> bool {
    (1..=3).contains(&prefix)
}

pub fn read_stamp(prefix: u64, bytes: &[u8]) -> Result<u64, Refusal> {
    demand(stamp_prefix(prefix), 40)?;
    let field = lone_field(bytes)?;
    demand(field.prefix == prefix && field.markers, 36)?;
    Ok(field.value)
}

pub fn read_any_stamp(bytes: &[u8]) -> Result<AnyStamp, Refusal> {
    lone_field(bytes)?.any()
}

fn write_field(bytes: &mut [u8], field: u64, size: usize) {
    let all = field.to_be_bytes();
    for (place, byte) in bytes.iter_mut().zip(&all[8 - size..]) {
        *place = *byte;
    }
}

pub fn write_stamp(prefix: u64, value: u64, bytes: &mut [u8]) -> Result<(), Refusal> {
    demand(stamp_prefix(prefix) && value < STAMP_TURN, 40)?;
    demand(bytes.len() >= STAMP_BYTES, 41)?;
    let high = value / 2u64.pow(30);
    let middle = value / 2u64.pow(15) % 32_768;
    let low = value % 32_768;
    let markers = 2u64.pow(32) + 2u64.pow(16) + 1;
    let parts = prefix * 2u64.pow(36) + high * 2u64.pow(33) + middle * 2u64.pow(17) + low * 2;
    write_field(bytes, parts + markers, STAMP_BYTES);
    Ok(())
}

/// Base and extension of a 48-bit clock reference field.
pub fn clock_field(field: u64) -> (u64, u64) {
    (field / 2u64.pow(15), field % 512)
}

pub fn read_clock(bytes: &[u8]) -> Result<u64, Refusal> {
    demand(bytes.len() >= CLOCK_BYTES, 41)?;
    let (base, extension) = clock_field(number_in(bytes, 0, CLOCK_BYTES));
    demand(extension <= 299, 8)?;
    Ok(base * 300 + extension)
}

pub fn write_clock(value: u64, bytes: &mut [u8]) -> Result<(), Refusal> {
    demand(value < CLOCK_TURN, 40)?;
    demand(bytes.len() >= CLOCK_BYTES, 41)?;
    let reserved = 63 * 512;
    let field = value / 300 * 2u64.pow(15) + reserved + value % 300;
    write_field(bytes, field, CLOCK_BYTES);
    Ok(())
}

/// The signed stamp difference, taken in whole numbers so that nothing can wrap.
pub fn apart(left: u64, right: u64) -> Result<i128, Refusal> {
    demand(left < STAMP_TURN && right < STAMP_TURN, 40)?;
    let half = 2i128.pow(32);
    let turned = (i128::from(left) - i128::from(right) + half).rem_euclid(2 * half);
    Ok(turned - half)
}

/// The forward reference difference, taken in whole numbers so that nothing can wrap.
pub fn forward(left: u64, right: u64) -> Result<i128, Refusal> {
    demand(left < CLOCK_TURN && right < CLOCK_TURN, 40)?;
    Ok((i128::from(left) - i128::from(right)).rem_euclid(i128::from(CLOCK_TURN)))
}
