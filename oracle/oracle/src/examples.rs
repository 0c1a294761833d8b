//! The examples of document 01 and of the readings of its open points, in a table of our own.

pub mod bytes;
pub mod own;
pub mod rules;
pub mod steps;
pub mod strict;
pub mod times;
pub mod values;
pub mod visits;
pub mod windows;
