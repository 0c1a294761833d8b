//! A stand-in for the part of `cedar_policy_core` that the temporal type check looks at.
//!
//! It holds just the entries of a schema record and finds names by equal bytes. No name fails to parse, reserved words
//! included; `Eid::escaped` is the identity; the listed ancestors stand for Cedar's `ancestors`. Nothing of Cedar's own
//! judgement is here: what the Rust decides, it decides above this crate.

pub mod ast;
pub mod validator;
