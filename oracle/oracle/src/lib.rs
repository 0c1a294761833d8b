//! The oracle: the four records read into the Rust's trees, and Check, Sums and Lookup answered by the published Rust.
//!
//! The reader is written from document 01 (the order that the product is built to) and the readings of its open points,
//! and from nothing else.

pub mod against;
pub mod answers;
pub mod cases;
pub mod coverage;
pub mod decimals;
pub mod examples;
pub mod generate;
pub mod hex;
pub mod lists;
pub mod own;
pub mod pieces;
pub mod plot;
pub mod records;
pub mod rng;
pub mod search;
pub mod shrink;
pub mod stack;
pub mod steps;
pub mod times;
pub mod timing;
pub mod visits;
pub mod workloads;
