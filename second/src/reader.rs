//! Reading a line from left to right.

/// What is left of a line.
pub(crate) struct Reader<'a> {
    rest: &'a [u8],
}

impl<'a> Reader<'a> {
    pub fn new(rest: &'a [u8]) -> Reader<'a> {
        Reader { rest }
    }

    pub fn at_end(&self) -> bool {
        self.rest.is_empty()
    }

    /// Takes a fixed run of bytes if it comes next.
    pub fn eat(&mut self, fixed: &[u8]) -> bool {
        match self.rest.strip_prefix(fixed) {
            Some(rest) => {
                self.rest = rest;
                true
            }
            None => false,
        }
    }

    /// Takes all bytes before the first that is one of `ends`, or the end.
    pub fn until(&mut self, ends: &[u8]) -> &'a [u8] {
        let found = self.rest.iter().position(|byte| ends.contains(byte));
        self.split(found.unwrap_or(self.rest.len()))
    }

    /// Takes all digits that come next, 1 to `most` of them.
    pub fn digits(&mut self, most: usize) -> Option<&'a [u8]> {
        let found = self.rest.iter().position(|byte| !byte.is_ascii_digit());
        let digits = self.split(found.unwrap_or(self.rest.len()));
        (1..=most).contains(&digits.len()).then_some(digits)
    }

    /// Takes a number from 1 to `most`, without leading zeros.
    pub fn plain_number(&mut self, most: u16) -> Option<u16> {
        let digits = self.digits(5)?;
        let number = decimal_value(digits);
        let plain = digits[0] != b'0' && number <= i64::from(most);
        plain.then_some(number as u16)
    }

    fn split(&mut self, count: usize) -> &'a [u8] {
        let (taken, rest) = self.rest.split_at(count);
        self.rest = rest;
        taken
    }
}

/// The value of at most 16 digits.
pub(crate) fn decimal_value(digits: &[u8]) -> i64 {
    digits
        .iter()
        .fold(0, |value, digit| value * 10 + i64::from(digit - b'0'))
}
