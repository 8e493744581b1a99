//! What a section's start sets back: IV, FV, SV, R and T.

use crate::arguments::{Array, Variable, ARRAYS, VARIABLES};
use crate::numbers::{on_decimals, on_integers, Operation};
use crate::values::Value;

/// The variables, each numbered from 1.
pub(crate) struct Variables {
    iv: Vec<i64>,
    fv: Vec<i64>,
    sv: Vec<Vec<u8>>,
    r: Vec<Vec<Value>>,
    t: Vec<Vec<Value>>,
}

impl Variables {
    /// Zero, empty and clear.
    pub fn fresh() -> Variables {
        let (variables, arrays) = (usize::from(VARIABLES), usize::from(ARRAYS));
        Variables {
            iv: vec![0; variables],
            fv: vec![0; variables],
            sv: vec![Vec::new(); variables],
            r: vec![Vec::new(); arrays],
            t: vec![Vec::new(); arrays],
        }
    }

    pub fn integer(&self, number: u16) -> i64 {
        self.iv[place(number)]
    }

    pub fn value(&self, variable: Variable) -> Value {
        match variable {
            Variable::Iv(n) => Value::Integer(self.iv[place(n)]),
            Variable::Fv(n) => Value::Decimal(self.fv[place(n)]),
            Variable::Sv(n) => Value::String(self.sv[place(n)].clone()),
        }
    }

    /// `$SETE`: IV takes an integer, FV a number, SV a string.
    pub fn set(&mut self, variable: Variable, value: &Value) -> Result<(), u32> {
        match variable {
            Variable::Iv(n) => self.iv[place(n)] = value.integer()?,
            Variable::Fv(n) => self.fv[place(n)] = value.decimal()?,
            Variable::Sv(n) => self.sv[place(n)] = value.string()?.to_vec(),
        }
        Ok(())
    }

    /// `$SETA`, `$SETS`, `$SETM`, `$SETD`.
    pub fn change(
        &mut self,
        operation: Operation,
        variable: Variable,
        value: &Value,
    ) -> Result<(), u32> {
        let changed = match self.value(variable) {
            Value::Decimal(old) => Value::Decimal(on_decimals(operation, old, value.decimal()?)?),
            old => Value::Integer(on_integers(operation, old.integer()?, value.integer()?)?),
        };
        self.set(variable, &changed)
    }

    pub fn fill(&mut self, array: Array, elements: Vec<Value>) {
        match array {
            Array::R(n) => self.r[place(n)] = elements,
            Array::T(n) => self.t[place(n)] = elements,
        }
    }

    /// An element, missing outside 1 to the count.
    pub fn element(&self, array: Array, number: i64) -> Value {
        let elements = match array {
            Array::R(n) => &self.r[place(n)],
            Array::T(n) => &self.t[place(n)],
        };
        let before = usize::try_from(number - 1).ok();
        let found = before.and_then(|before| elements.get(before));
        found.cloned().unwrap_or(Value::Missing)
    }
}

/// Where a variable numbered from 1 is kept.
fn place(number: u16) -> usize {
    usize::from(number) - 1
}
