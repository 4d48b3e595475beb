//! The second program: the cache server of a dispatch group and its rehearsal, written from the
//! document alone, to be compared with the proved cache byte for byte.

pub mod answer;
pub mod command;
pub mod count;
pub mod decision;
pub mod generate;
pub mod lent;
pub mod machine;
pub mod numbers;
pub mod rehearsal;
pub mod tables;
pub mod value;

pub use answer::Answer;
pub use command::Command;
pub use machine::Machine;
