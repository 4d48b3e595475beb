//! The proved library for the programs that hold it beside the second program.

pub mod proved;
