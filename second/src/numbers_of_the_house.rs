//! Document 01, "Numbers of the house", with requests 2, 7 and 8 of document 02.

pub const AREAS: usize = 8;
pub const AREA_BYTES: usize = 4_096;
pub const STORE_BYTES: usize = 32_768;
pub const PLACES: usize = 32;
pub const LAST_NUMBER: u32 = 65_535;
pub const LEAST_OUTPUT_BYTES: usize = 4_278;
pub const LEAST_LIST_PLACES: usize = 61;
pub const LONGEST_SECTION_LENGTH: usize = 4_093;
pub const PACKET_BYTES: usize = 188;
pub const LAST_FILTER_PID: u16 = 0x1FFE;
pub const LAST_PID: u16 = 0x1FFF;
pub const LAST_CHOICE: u16 = 255;
pub const STAMP_TURN: u64 = 8_589_934_592;
pub const CLOCK_TURN: u64 = 2_576_980_377_600;
pub const TICKS_A_SECOND: u64 = 27_000_000;
pub const MOST_RATED_BYTES: u64 = 333_599_972;
pub const TRANSPORT_BUFFER_BYTES: u64 = 512;
pub const TICKS_A_BYTE: u64 = 108;
/// What a packet brings to the transport buffer and what that has room for, in 108ths of a byte: the ticks that they take to drain.
pub const PACKET_TICKS: u64 = PACKET_BYTES as u64 * TICKS_A_BYTE;
pub const ROOM_TICKS: u64 = TRANSPORT_BUFFER_BYTES * TICKS_A_BYTE;
