//! What the tests share: random trees, the parts of a tree, records written without any rule.
#![allow(dead_code)]

pub mod generate;
pub mod parts;
pub mod rng;
pub mod spell;

use dogwood_check::{Condition, Operator, Report, Term};

/// The example of README.md: `true < 1`.
pub const SCHEMA: &[u8] = b"DWS\0\x01\0\0\0\0";
pub const CONDITION: &[u8] = b"DWC\0\x01\x08\0\0\0\0\0\0\0\x08\x01\x05\x02";
pub const TARGETS: &[u8] = b"DWT\0\x01\0\0\x01\0\x04view";
pub const MESSAGE: &str = "comparison requires numeric operands on both sides, got `boolean` and `int`";

/// `true < 1` at this start, which is reported there.
pub fn wrong_comparison(start: u32) -> Condition {
    Condition::comparison(start..start + 8, Operator::Lt, Term::Bool, Term::Integer)
}

pub fn report(start: u32, end: u32, message: &str) -> Report {
    Report { start, end, message: message.to_string() }
}
