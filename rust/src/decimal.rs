//! Decimals: counts of millionths.

use std::fmt;
use std::str::FromStr;

/// A decimal as a store holds it: a count of millionths.
///
/// It is written and read as a template writes it, with a point and one to six places behind it.
///
/// ```
/// use station::Decimal;
///
/// let d: Decimal = "-0.5".parse().unwrap();
/// assert_eq!(d.millionths(), -500_000);
/// assert_eq!(Decimal::from_millionths(60_000_000_000).to_string(), "60000.0");
/// ```
#[derive(Clone, Copy, Debug, Default, PartialEq, Eq, PartialOrd, Ord, Hash)]
pub struct Decimal(i64);

impl Decimal {
    /// The decimal of a count of millionths. A store takes those within ±2×10^15; put refuses others with 15.
    ///
    /// ```
    /// assert_eq!(station::Decimal::from_millionths(1).to_string(), "0.000001");
    /// ```
    pub const fn from_millionths(millionths: i64) -> Decimal {
        Decimal(millionths)
    }

    /// The count of millionths.
    ///
    /// ```
    /// assert_eq!("1.25".parse::<station::Decimal>().unwrap().millionths(), 1_250_000);
    /// ```
    pub const fn millionths(self) -> i64 {
        self.0
    }
}

impl fmt::Display for Decimal {
    fn fmt(&self, f: &mut fmt::Formatter) -> fmt::Result {
        let magnitude = self.0.unsigned_abs();
        let sign = if self.0 < 0 { "-" } else { "" };
        let places = format!("{:06}", magnitude % 1_000_000);
        let shown = places.trim_end_matches('0');
        let shown = if shown.is_empty() { "0" } else { shown };
        write!(f, "{sign}{}.{shown}", magnitude / 1_000_000)
    }
}

/// What [`Decimal`] can't be read from.
///
/// ```
/// assert!("1.".parse::<station::Decimal>().is_err());
/// assert!("1.1234567".parse::<station::Decimal>().is_err());
/// ```
#[derive(Clone, Copy, Debug, PartialEq, Eq)]
pub struct NotADecimal;

impl fmt::Display for NotADecimal {
    fn fmt(&self, f: &mut fmt::Formatter) -> fmt::Result {
        f.write_str("not a decimal: an optional minus, 1 to 10 digits, a point, 1 to 6 digits")
    }
}

impl std::error::Error for NotADecimal {}

impl FromStr for Decimal {
    type Err = NotADecimal;

    fn from_str(text: &str) -> Result<Decimal, NotADecimal> {
        let (below, digits) = match text.strip_prefix('-') {
            Some(digits) => (true, digits),
            None => (false, text),
        };
        let (whole, places) = digits.split_once('.').ok_or(NotADecimal)?;
        let plain = |part: &str, most| {
            (1..=most).contains(&part.len()) && part.bytes().all(|b| b.is_ascii_digit())
        };
        if !plain(whole, 10) || !plain(places, 6) {
            return Err(NotADecimal);
        }
        let magnitude: i64 = format!("{whole}{places:0<6}")
            .parse()
            .map_err(|_| NotADecimal)?;
        Ok(Decimal(if below { -magnitude } else { magnitude }))
    }
}
