//! Lines `key=value`, each ended by a line feed.

/// A text that is read line by line.
pub struct Lines<'a> {
    rest: &'a [u8],
    read: usize,
}

impl<'a> Lines<'a> {
    pub fn new(text: &'a [u8]) -> Self {
        Lines { rest: text, read: 0 }
    }

    /// How many lines were read; the number of the line that was read last.
    pub fn read(&self) -> usize {
        self.read
    }

    /// The numbers of the next line; where it is missing or of wrong form, its number.
    pub fn row<const N: usize>(&mut self, key: &[u8]) -> Result<[u16; N], usize> {
        self.read += 1;
        self.next_line().and_then(|line| numbers(line, key)).ok_or(self.read)
    }

    /// Nothing may be left; otherwise the number of the line that is too many.
    pub fn end(&self) -> Result<(), usize> {
        if self.rest.is_empty() {
            return Ok(());
        }
        Err(self.read + 1)
    }

    /// The next line without its line feed; none where no line feed comes.
    fn next_line(&mut self) -> Option<&'a [u8]> {
        let length = self.rest.iter().position(|byte| *byte == b'\n')?;
        let line = &self.rest[..length];
        self.rest = &self.rest[length + 1..];
        Some(line)
    }
}

/// The `N` numbers of a line with the key `key`.
fn numbers<const N: usize>(line: &[u8], key: &[u8]) -> Option<[u16; N]> {
    let value = line.strip_prefix(key)?.strip_prefix(b"=")?;
    let mut parts = value.split(|byte| *byte == b',');
    let mut row = [0; N];
    for number in &mut row {
        *number = decimal(parts.next()?)?;
    }
    match parts.next() {
        None => Some(row),
        Some(_) => None,
    }
}

/// A decimal number from 0 to 65,535 without leading zeros.
fn decimal(digits: &[u8]) -> Option<u16> {
    if digits.is_empty() || (digits.len() > 1 && digits[0] == b'0') {
        return None;
    }
    let mut number: u16 = 0;
    for digit in digits {
        let worth = digit.is_ascii_digit().then(|| digit - b'0')?;
        number = number.checked_mul(10)?.checked_add(u16::from(worth))?;
    }
    Some(number)
}
