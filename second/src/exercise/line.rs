//! A line of a script: a word, numbers in their ranges, and bytes.

const MOST_BYTES: usize = 8_192;
const ANY: u64 = u64::MAX;

pub struct Call {
    pub word: &'static str,
    pub numbers: Vec<u64>,
    pub bytes: Vec<u8>,
}

/// Each word with the highest value of each number, and whether bytes come last.
pub const LINES: [(&str, &[u64], bool); 36] = [
    ("fresh", &[], false),
    ("area", &[7, 65_535, 255, 65_535, 255, 255, 255], false),
    ("place", &[31, 65_535, 255, 65_535], false),
    ("next", &[4_294_967_295], false),
    ("store", &[40_960], true),
    ("output", &[8_192], true),
    ("list", &[127, 4_294_967_295], false),
    ("digest", &[], false),
    ("open", &[65_535, 256], false),
    ("close", &[65_535], false),
    ("packet", &[40_960, 8_192, 128], true),
    ("pid", &[65_535], false),
    ("alone", &[], true),
    ("pat", &[], true),
    ("patitem", &[65_535], true),
    ("programs", &[256, 256], true),
    ("pmt", &[], true),
    ("pmtitem", &[65_535], true),
    ("streams", &[256, 256, 256, 256], true),
    ("outer", &[65_535], true),
    ("inner", &[65_535, 65_535], true),
    ("loop", &[ANY], true),
    ("crc", &[], true),
    ("pes", &[], true),
    ("stamp", &[255], true),
    ("anystamp", &[], true),
    ("setstamp", &[255, ANY], true),
    ("clock", &[], true),
    ("setclock", &[ANY], true),
    ("apart", &[ANY, ANY], false),
    ("forward", &[ANY, ANY], false),
    ("rate", &[ANY; 3], false),
    ("rerate", &[ANY; 6], false),
    ("clear", &[], false),
    ("arrive", &[ANY, ANY, 2_048, 65_535], false),
    ("judge", &[65_535], false),
];

pub fn read(text: &[u8]) -> Option<Call> {
    let fields: Vec<&[u8]> = text.split(|byte| *byte == b' ').collect();
    let shape = LINES.iter().find(|line| line.0.as_bytes() == fields[0])?;
    let (word, ranges, with_bytes) = *shape;
    if fields.len() != 1 + ranges.len() + usize::from(with_bytes) {
        return None;
    }
    let mut numbers = Vec::new();
    for (field, highest) in fields[1..].iter().zip(ranges) {
        numbers.push(read_number(field).filter(|number| number <= highest)?);
    }
    let bytes = if with_bytes {
        read_bytes(fields[fields.len() - 1])?
    } else {
        Vec::new()
    };
    Some(Call {
        word,
        numbers,
        bytes,
    })
}

fn read_number(field: &[u8]) -> Option<u64> {
    let digits = field.iter().all(u8::is_ascii_digit);
    if !digits || field.is_empty() || field.len() > 20 {
        return None;
    }
    let number = field.iter().fold(0u128, |number, digit| {
        number * 10 + u128::from(*digit - b'0')
    });
    u64::try_from(number).ok()
}

fn read_bytes(field: &[u8]) -> Option<Vec<u8>> {
    let digits = field.strip_prefix(b"=")?;
    if digits.len() % 2 != 0 || digits.len() > 2 * MOST_BYTES {
        return None;
    }
    let pair = |pair: &[u8]| Some(16 * read_digit(pair[0])? + read_digit(pair[1])?);
    digits.chunks(2).map(pair).collect()
}

fn read_digit(digit: u8) -> Option<u8> {
    let places = b"0123456789abcdef";
    let found = places.iter().position(|place| *place == digit)?;
    Some(found as u8)
}
