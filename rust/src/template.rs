//! Templates.

use crate::ffi;
use crate::refusal::ended;
use crate::Refusal;
use std::fmt;

/// The most bytes of a template.
pub const TEMPLATE_BYTES: usize = 32_768;

/// A template that passed checks 2 to 5.
///
/// ```
/// use station::{Refusal, Template};
///
/// let template = Template::check("$SEC A\nx is {IV1,3}\n$SEC B\n")?;
/// assert_eq!(template.sections().collect::<Vec<_>>(), ["A", "B"]);
///
/// let refused = Template::check("$SEC A\n$SETE IV100 5\n").unwrap_err();
/// assert_eq!((refused.refusal, refused.line), (Refusal::LineForm, 2));
/// # Ok::<(), station::Refused>(())
/// ```
#[derive(Clone, PartialEq, Eq)]
pub struct Template {
    /// All bytes are 0x20–0x7E or 0x0A.
    text: String,
}

impl Template {
    /// Checks 2 to 5, each over the whole template: the template, or the number and the line that is named.
    ///
    /// ```
    /// assert!(station::Template::check(b"$SEC A\nno line end").is_ok());
    /// assert_eq!(station::Template::check([0xff]).unwrap_err().to_string(),
    ///     "line 1: 2: The template is too long (line 0), has a byte or line outside its limits.");
    /// ```
    pub fn check(bytes: impl AsRef<[u8]>) -> Result<Template, Refused> {
        let bytes = bytes.as_ref();
        let (number, line) = ffi::check(bytes, b"");
        match ended(number) {
            // That no section is there to be selected isn't the template's fault, but the caller's of a report.
            Ok(()) | Err(Refusal::NoSection) => Ok(Template {
                text: bytes.iter().map(|&byte| char::from(byte)).collect(),
            }),
            Err(refusal) => Err(Refused { refusal, line }),
        }
    }

    /// The names of the sections, in order.
    ///
    /// ```
    /// let template = station::Template::check("$REM none\n")?;
    /// assert_eq!(template.sections().count(), 0);
    /// # Ok::<(), station::Refused>(())
    /// ```
    pub fn sections(&self) -> impl Iterator<Item = &str> {
        self.text
            .split('\n')
            .filter_map(|line| line.strip_prefix("$SEC "))
    }

    /// The bytes of the template.
    ///
    /// ```
    /// let template = station::Template::check("$SEC A\n")?;
    /// assert_eq!(template.as_bytes(), b"$SEC A\n");
    /// # Ok::<(), station::Refused>(())
    /// ```
    pub fn as_bytes(&self) -> &[u8] {
        self.text.as_bytes()
    }
}

impl fmt::Debug for Template {
    fn fmt(&self, f: &mut fmt::Formatter) -> fmt::Result {
        f.debug_tuple("Template").field(&self.text).finish()
    }
}

/// A refusal and the line that it names; line 0 where it names none.
///
/// ```
/// let refused = station::Template::check("x").unwrap_err();
/// assert_eq!((refused.refusal.number(), refused.line), (4, 1));
/// ```
#[derive(Clone, Copy, Debug, PartialEq, Eq)]
pub struct Refused {
    /// Why.
    pub refusal: Refusal,
    /// Where, counted from 1.
    pub line: u32,
}

impl fmt::Display for Refused {
    fn fmt(&self, f: &mut fmt::Formatter) -> fmt::Result {
        if self.line != 0 {
            write!(f, "line {}: ", self.line)?;
        }
        write!(f, "{}: {}", self.refusal.number(), self.refusal)
    }
}

impl std::error::Error for Refused {}
