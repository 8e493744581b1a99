//! Check 3: where an argument loses its form.

use super::Explanation;

pub type Read<T = ()> = Result<T, Explanation>;

const ARGUMENT: &str = "allowed: an integer, a decimal, a string in double quotes, IVn, FVn, SVn (n 1–99), PAGENUM, LINENUM, LOOP, Rn, Tn (n 1–10), Pn, Pn.r, Pn.r.e";
pub const INDEX: &str = "allowed: 1–3 digits, IVn or LOOP";
const FILTERS: &str = "allowed: |ABS, |INT, |UPPER, |LEN; |RECCNT on Pn, |ENTCNT on Pn.r";

/// A line, and the place up to which it is read.
pub struct Reader<'a> {
    pub line: &'a [u8],
    pub at: usize,
}

/// What a cell's argument is, for its filter.
#[derive(PartialEq)]
enum Operand {
    Parameter,
    Record,
    Other,
}

impl<'a> Reader<'a> {
    pub fn rest(&self) -> &'a [u8] {
        &self.line[self.at..]
    }

    pub fn eat(&mut self, bytes: &[u8]) -> bool {
        let found = self.rest().starts_with(bytes);
        if found {
            self.at += bytes.len();
        }
        found
    }

    pub fn at_end(&self) -> bool {
        self.at == self.line.len()
    }

    /// A fault from a place up to where a word would end.
    pub fn word_fault(&self, from: usize, what: impl Into<String>) -> Explanation {
        let ends = |b: &u8| b" ,}|{".contains(b);
        let length = self.line[from..].iter().position(ends);
        let to = from + length.unwrap_or(self.line.len() - from);
        Explanation::between(from, to, what)
    }

    /// A fault at this place: something is due here.
    pub fn due(&self, what: &str) -> Explanation {
        let found = match self.at_end() {
            true => format!("the line ends where {what} is due"),
            false => format!("{what} is due here"),
        };
        self.word_fault(self.at, found)
    }

    pub fn space(&mut self, before: &str) -> Read {
        match self.eat(b" ") {
            true => Ok(()),
            false => Err(self.due(&format!("one space and {before}"))),
        }
    }

    /// The digits that come next, all of them.
    pub fn digits(&mut self) -> &'a [u8] {
        let from = self.at;
        while self.line.get(self.at).is_some_and(u8::is_ascii_digit) {
            self.at += 1;
        }
        &self.line[from..self.at]
    }

    /// A number without leading zeros, the n of a name that begins at a place.
    pub fn plain(&mut self, from: usize, name: &str, most: u32) -> Read {
        let digits = self.digits();
        let leading = digits.first() == Some(&b'0');
        let value = value(digits);
        match value {
            Some(n) if !leading && (1..=most).contains(&n) => Ok(()),
            Some(n) if leading && n != 0 => {
                Err(self.word_fault(from, format!("{name} has no leading zeros")))
            }
            _ => Err(self.word_fault(from, format!("{name} is 1–{most}"))),
        }
    }

    pub fn argument(&mut self) -> Read {
        let operand = self.operand()?;
        let from = self.at;
        if !self.eat(b"|") {
            return Ok(());
        }
        let name_at = self.at;
        while self
            .line
            .get(self.at)
            .is_some_and(u8::is_ascii_alphanumeric)
        {
            self.at += 1;
        }
        let name = &self.line[name_at..self.at];
        let shown = String::from_utf8_lossy(name);
        match name {
            b"ABS" | b"INT" | b"UPPER" | b"LEN" => Ok(()),
            b"RECCNT" if operand == Operand::Parameter => Ok(()),
            b"ENTCNT" if operand == Operand::Record => Ok(()),
            b"RECCNT" => Err(Explanation::between(
                from,
                self.at,
                "|RECCNT stands on Pn alone",
            )),
            b"ENTCNT" => Err(Explanation::between(
                from,
                self.at,
                "|ENTCNT stands on Pn.r alone",
            )),
            _ => {
                let what = format!("unknown filter |{shown}");
                Err(Explanation::between(from, self.at, what).note(FILTERS))
            }
        }
    }

    fn operand(&mut self) -> Read<Operand> {
        let from = self.at;
        match self.rest().first() {
            Some(b'"') => self.string()?,
            Some(b'-' | b'0'..=b'9') => self.literal()?,
            _ if self.eat(b"PAGENUM") || self.eat(b"LINENUM") || self.eat(b"LOOP") => {}
            Some(b'P') => return self.cell(),
            _ if self.variable_word() => self.plain(from, &self.named(from), 99)?,
            _ if self.eat(b"R") || self.eat(b"T") => self.plain(from, &self.named(from), 10)?,
            None => return Err(self.due("an argument").note(ARGUMENT)),
            Some(_) => {
                let what = "this is no argument";
                return Err(self.word_fault(from, what).note(ARGUMENT));
            }
        }
        Ok(Operand::Other)
    }

    pub fn variable_word(&mut self) -> bool {
        self.eat(b"IV") || self.eat(b"FV") || self.eat(b"SV")
    }

    /// `n of IVn`, of the word that began at a place.
    pub fn named(&self, from: usize) -> String {
        let word = String::from_utf8_lossy(&self.line[from..self.at]);
        format!("n of {word}n")
    }

    fn string(&mut self) -> Read {
        let from = self.at;
        let length = self.rest()[1..].iter().position(|&b| b == b'"');
        let Some(length) = length else {
            let what = "the string has no closing quote";
            return Err(Explanation::between(from, self.line.len(), what));
        };
        self.at += length + 2;
        match length {
            0..=16 => Ok(()),
            _ => {
                let what = format!("a string of {length} bytes");
                Err(Explanation::between(from, self.at, what)
                    .note("allowed: 0–16 bytes without a quote"))
            }
        }
    }

    fn literal(&mut self) -> Read {
        let from = self.at;
        self.eat(b"-");
        let whole = self.digits().to_vec();
        let mut places = Vec::new();
        let dotted = self.eat(b".");
        if dotted {
            places = self.digits().to_vec();
        }
        let fault = |what: &str| Err(Explanation::between(from, self.at, what));
        match (whole.len(), dotted, places.len()) {
            (0, _, _) => return fault("a number has a digit behind the minus"),
            (11.., _, _) => return fault("a number has 1–10 digits"),
            (_, true, 0 | 7..) => return fault("a decimal has 1–6 digits behind the point"),
            _ => {}
        }
        places.resize(6, b'0');
        let millionths = value(&whole).zip(value(&places));
        let inside = millionths.is_some_and(|(n, m)| (n, m) <= (2_000_000_000, 0));
        match inside {
            true => Ok(()),
            false => fault("a number literal is within ±2,000,000,000"),
        }
    }

    fn cell(&mut self) -> Read<Operand> {
        let from = self.at;
        self.eat(b"P");
        self.plain(from, "n of Pn", 65_535)?;
        if !self.eat(b".") {
            return Ok(Operand::Parameter);
        }
        self.index()?;
        if !self.eat(b".") {
            return Ok(Operand::Record);
        }
        self.index()?;
        Ok(Operand::Other)
    }

    pub fn index(&mut self) -> Read {
        let from = self.at;
        if self.eat(b"LOOP") {
            return Ok(());
        }
        if self.eat(b"IV") {
            return self.plain(from, "n of IVn", 99);
        }
        match self.digits().len() {
            1..=3 => Ok(()),
            0 if self.at_end() => Err(self.due("an index").note(INDEX)),
            0 => Err(self.word_fault(from, "this is no index").note(INDEX)),
            _ => Err(Explanation::between(from, self.at, "an index has 1–3 digits").note(INDEX)),
        }
    }
}

/// The number of some digits; none where there are none or it is far past every limit.
pub fn value(digits: &[u8]) -> Option<u32> {
    let digits = std::str::from_utf8(digits).ok()?;
    digits.parse().ok()
}
