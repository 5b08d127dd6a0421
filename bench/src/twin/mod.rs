//! The same algorithms in plain Rust, with no contracts: what the proved library is measured against.

pub mod calculus;
pub mod checker;
pub mod controller;
pub mod reader;
pub mod registers;
pub mod stepper;
pub mod trees;
