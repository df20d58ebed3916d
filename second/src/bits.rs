//! Bits as a text of zeros and ones, from which fields are cut by their widths.

use crate::refusal_numbers::Refusal;

/// The bits that are left, and the refusal where a field needs more of them.
pub struct Bits {
    left: String,
    short: Refusal,
}

impl Bits {
    pub fn of(bytes: &[u8], short: u32) -> Bits {
        Bits {
            left: bytes.iter().map(|byte| format!("{:08b}", byte)).collect(),
            short: Refusal(short),
        }
    }

    /// A number for each width, one behind the other.
    pub fn cut<const N: usize>(&mut self, widths: [usize; N]) -> Result<[u64; N], Refusal> {
        let mut numbers = [0; N];
        for (number, width) in numbers.iter_mut().zip(widths) {
            *number = self.cut_one(width)?;
        }
        Ok(numbers)
    }

    /// The same where the flag is 1; where it is 0, nothing is cut.
    pub fn cut_flagged<const N: usize>(
        &mut self,
        flag: u64,
        widths: [usize; N],
    ) -> Result<Option<[u64; N]>, Refusal> {
        if flag == 0 {
            return Ok(None);
        }
        self.cut(widths).map(Some)
    }

    fn cut_one(&mut self, width: usize) -> Result<u64, Refusal> {
        let field = self.left.get(..width).ok_or(self.short)?;
        let digit = |bit: char| u64::from(bit == '1');
        let number = field.chars().fold(0, |number, bit| 2 * number + digit(bit));
        self.left.drain(..width);
        Ok(number)
    }
}
