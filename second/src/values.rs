//! Values: what a cell, a variable, a literal or a count gives.

use crate::arguments::Filter;
use crate::endings::WRONG_KIND;
use crate::numbers::{absolute, decimal_to_integer, integer_to_decimal, Number};

/// The longest string.
pub const STRING_LIMIT: usize = 16;

/// A value, or none.
#[derive(Clone, Debug, PartialEq, Eq)]
pub enum Value {
    Missing,
    Integer(i64),
    /// A count of millionths.
    Decimal(i64),
    String(Vec<u8>),
}

impl Value {
    /// The integer, or 11.
    pub fn integer(&self) -> Result<i64, u32> {
        match self {
            Value::Integer(n) => Ok(*n),
            _ => Err(WRONG_KIND),
        }
    }

    /// The number, or 11.
    pub fn number(&self) -> Result<Number, u32> {
        match self {
            Value::Integer(n) => Ok(Number::Integer(*n)),
            Value::Decimal(n) => Ok(Number::Decimal(*n)),
            _ => Err(WRONG_KIND),
        }
    }

    /// The number as a decimal, or 11.
    pub fn decimal(&self) -> Result<i64, u32> {
        match self.number()? {
            Number::Integer(n) => integer_to_decimal(n),
            Number::Decimal(n) => Ok(n),
        }
    }

    /// The string, or 11.
    pub fn string(&self) -> Result<&[u8], u32> {
        match self {
            Value::String(bytes) => Ok(bytes),
            _ => Err(WRONG_KIND),
        }
    }

    /// The value behind a filter, or 11; missing stays missing.
    pub fn filtered(self, filter: Option<Filter>) -> Result<Value, u32> {
        let Some(filter) = filter else {
            return Ok(self);
        };
        if self == Value::Missing {
            return Ok(Value::Missing);
        }
        match filter {
            Filter::Abs => Ok(absolute(self.number()?)?.into()),
            Filter::Int => match self.number()? {
                Number::Integer(n) => Ok(Value::Integer(n)),
                Number::Decimal(n) => Ok(Value::Integer(decimal_to_integer(n)?)),
            },
            Filter::Upper => Ok(Value::String(self.string()?.to_ascii_uppercase())),
            Filter::Len => Ok(Value::Integer(self.string()?.len() as i64)),
            // These two are answered by a question, not worked out here.
            Filter::RecCnt | Filter::EntCnt => Ok(self),
        }
    }
}

impl From<Number> for Value {
    fn from(number: Number) -> Value {
        match number {
            Number::Integer(n) => Value::Integer(n),
            Number::Decimal(n) => Value::Decimal(n),
        }
    }
}

/// Whether two strings agree up to the shorter length.
pub fn strings_agree(a: &[u8], b: &[u8], ignore_case: bool) -> bool {
    let shorter = a.len().min(b.len());
    let (a, b) = (&a[..shorter], &b[..shorter]);
    if ignore_case {
        a.eq_ignore_ascii_case(b)
    } else {
        a == b
    }
}
