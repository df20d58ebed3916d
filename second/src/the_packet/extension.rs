//! Request 6 of document 02: the adaptation field's extension, cut as a row of bits.

use crate::bits::Bits;
use crate::refusal_numbers::Refusal;
use crate::time::{StampField, STAMP_WIDTHS};

/// The widths of the flags for window, rate and splice, and of what is reserved behind them.
const FLAG_WIDTHS: [usize; 4] = [1, 1, 1, 5];

/// The widths of a window's valid bit and offset.
const WINDOW_WIDTHS: [usize; 2] = [1, 15];

/// The widths of what is reserved before a rate, and of the rate.
const RATE_WIDTHS: [usize; 2] = [2, 22];

/// The legal time window.
#[derive(Clone, Copy, Debug, PartialEq, Eq)]
pub struct Window {
    pub valid: bool,
    pub offset: u64,
}

/// The parts that are flagged, with the splice's markers not yet judged.
#[derive(Default)]
pub struct Extension {
    pub window: Option<Window>,
    pub rate: Option<u64>,
    pub splice: Option<StampField>,
}

/// Reads the bytes behind the length byte, refused where they end before the flags byte or a flagged part does.
pub fn read_extension(bytes: &[u8]) -> Result<Extension, Refusal> {
    let mut bits = Bits::of(bytes, 7);
    let [window, rate, splice, _] = bits.cut(FLAG_WIDTHS)?;
    let window = bits.cut_flagged(window, WINDOW_WIDTHS)?;
    let rate = bits.cut_flagged(rate, RATE_WIDTHS)?;
    let splice = bits.cut_flagged(splice, STAMP_WIDTHS)?;
    Ok(Extension {
        window: window.map(|[valid, offset]| Window {
            valid: valid == 1,
            offset,
        }),
        rate: rate.map(|[_, rate]| rate),
        splice: splice.map(StampField::of),
    })
}
