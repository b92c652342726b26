//! Searches, digits, and the bytes of lines. Long loops have no early exit, so that the compiler makes vectors of them.

/// The place of the first byte that fits. Sixteen bytes are asked together, and only the last sixteen one by one.
#[inline(always)]
pub fn find(bytes: &[u8], fits: impl Fn(u8) -> bool) -> Option<usize> {
    let mut passed = 0;
    for chunk in bytes.as_chunks::<16>().0 {
        if any(chunk, &fits) {
            break;
        }
        passed += 16;
    }
    bytes[passed..].iter().position(|byte| fits(*byte)).map(|place| passed + place)
}

/// The place of the first byte that fits, and the sum of the bytes before it.
#[inline(always)]
pub fn find_and_sum(bytes: &[u8], fits: impl Fn(u8) -> bool) -> Option<(usize, u8)> {
    let place = find(bytes, fits)?;
    Some((place, bytes[..place].iter().fold(0, |sum, byte| sum.wrapping_add(*byte))))
}

/// What is between the bytes that are a delimiter.
pub fn split(bytes: &[u8], delimiter: u8) -> impl Iterator<Item = &[u8]> {
    bytes.split(move |byte| *byte == delimiter)
}

/// Whether a byte fits.
#[inline(always)]
pub fn any(bytes: &[u8], fits: impl Fn(u8) -> bool) -> bool {
    bytes.iter().fold(false, |found, byte| found | fits(*byte))
}

/// How many bytes are this one.
pub fn count(bytes: &[u8], wanted: u8) -> usize {
    let in_chunk = |chunk: &[u8]| chunk.iter().fold(0u8, |count, byte| count + (*byte == wanted) as u8);
    bytes.chunks(255).map(|chunk| in_chunk(chunk) as usize).sum()
}

/// Writes two lower-case digits for each byte. Both are made at once, the high one in the low half of a word.
#[inline]
pub fn write_digits(bytes: &[u8], digits: &mut [u8]) {
    for (pair, byte) in digits.as_chunks_mut().0.iter_mut().zip(bytes) {
        let values = u16::from(byte >> 4) | u16::from(byte & 15) << 8;
        let letters = (values + 0x0606) >> 4 & 0x0101;
        *pair = (values + 0x3030 + letters * u16::from(b'a' - b'0' - 10)).to_le_bytes();
    }
}

/// The value of a digit in either case; 255 where it is none.
#[inline(always)]
pub fn digit_value(digit: u8) -> u8 {
    let decimal = digit.wrapping_sub(b'0');
    let letter = (digit | 0x20).wrapping_sub(b'a');
    if decimal < 10 {
        decimal
    } else if letter < 6 {
        letter + 10
    } else {
        255
    }
}

/// Whether all of it are digits.
pub fn are_digits(digits: &[u8]) -> bool {
    !any(digits, |digit| digit_value(digit) == 255)
}

/// Reads pairs of digits, both of a pair at once: the low half of a byte is the value of a decimal digit, and nine less
/// than that of a letter, which has bit 6.
pub fn read_digits(digits: &[u8], bytes: &mut [u8]) {
    for (byte, pair) in bytes.iter_mut().zip(digits.as_chunks().0) {
        let pair = u16::from_le_bytes(*pair);
        let values = (pair & 0x0f0f) + (pair >> 6 & 0x0101) * 9;
        *byte = (values << 4 | values >> 8) as u8;
    }
}

/// Bytes that wait to be written. The buffer grows to the most that was put between two clearings, and then stays.
#[derive(Default)]
pub struct Lines {
    buffer: Vec<u8>,
    filled: usize,
}

impl Lines {
    /// The next `count` bytes, to be written over.
    #[inline(always)]
    fn room(&mut self, count: usize) -> &mut [u8] {
        let start = self.filled;
        self.filled += count;
        if self.filled > self.buffer.len() {
            self.buffer.resize(2 * self.filled, 0);
        }
        &mut self.buffer[start..self.filled]
    }

    #[inline(always)]
    pub fn put(&mut self, bytes: &[u8]) {
        self.room(bytes.len()).copy_from_slice(bytes);
    }

    /// The bytes as digits, two for each.
    #[inline]
    pub fn put_digits(&mut self, bytes: &[u8]) {
        write_digits(bytes, self.room(2 * bytes.len()));
    }

    /// The bytes with letters in lower case, which digits and the beginning of a capture's line keep as they are.
    pub fn put_lower(&mut self, bytes: &[u8]) {
        for (lower, byte) in self.room(bytes.len()).iter_mut().zip(bytes) {
            *lower = byte.to_ascii_lowercase();
        }
    }

    /// The number in decimal digits.
    #[inline]
    pub fn put_number(&mut self, mut number: u64) {
        if number < 10 {
            return self.put(&[b'0' + number as u8]);
        }
        for digit in self.room(number.ilog10() as usize + 1).iter_mut().rev() {
            *digit = b'0' + (number % 10) as u8;
            number /= 10;
        }
    }

    pub fn as_slice(&self) -> &[u8] {
        &self.buffer[..self.filled]
    }

    pub fn clear(&mut self) {
        self.filled = 0;
    }
}
