//! The values of literals, and what an arithmetic does.

use crate::encode::{Class, Encoded, Writer};
use crate::Decimal;

/// The version of a condition record that brought values, and the operator of an arithmetic.
pub(crate) const VALUES: u8 = 3;

/// A literal with its value, or an entity with its id.
///
/// ```
/// use dogwood_check::{Condition, Operator, Term};
///
/// // context.input.price == 1.50
/// let price = Term::context(["input", "price"]);
/// let condition = Condition::comparison(0..27, Operator::Eq, price, Term::decimal("1.50")?);
/// assert_eq!(condition.encode()?[..5], *b"DWC\0\x03");
/// # Ok::<(), Box<dyn std::error::Error>>(())
/// ```
#[derive(Clone, Debug, PartialEq, Eq)]
pub enum Value {
    /// `User::"ann"`
    Entity {
        /// The name of its type.
        type_name: String,
        /// Its id, a plain string.
        id: String,
    },
    /// A whole number.
    Integer(i64),
    /// A decimal. The record holds its text as it is shown, with four digits after the point.
    Decimal(Decimal),
    /// A text, a plain string.
    String(String),
    /// `true` or `false`.
    Bool(bool),
}

/// What an arithmetic does with its two terms.
#[derive(Clone, Copy, Debug, PartialEq, Eq, Hash)]
#[repr(u8)]
pub enum ArithOp {
    /// `+`
    Add = 0,
    /// `-`
    Sub = 1,
    /// `*`
    Mul = 2,
}

impl ArithOp {
    /// Every operator, in the order of the format's numbers.
    pub const ALL: [ArithOp; 3] = [ArithOp::Add, ArithOp::Sub, ArithOp::Mul];
}

impl Value {
    /// The format's number of a term with this value.
    pub(crate) fn number(&self) -> u8 {
        match self {
            Value::Entity { .. } => 1,
            Value::Integer(_) => 2,
            Value::Decimal(_) => 3,
            Value::String(_) => 4,
            Value::Bool(_) => 5,
        }
    }

    /// What stands behind that number.
    pub(crate) fn write(&self, out: &mut Writer) -> Encoded {
        match self {
            Value::Entity { type_name, id } => {
                out.text(Class::PathName, type_name)?;
                out.text(Class::Plain, id)
            }
            Value::Integer(number) => {
                out.number64(*number);
                Ok(())
            }
            Value::Decimal(decimal) => out.text(Class::Plain, &decimal.to_string()),
            Value::String(text) => out.text(Class::Plain, text),
            Value::Bool(truth) => {
                out.byte(u8::from(*truth));
                Ok(())
            }
        }
    }
}
