//! The programs behind the commands of `heqdanu` as their users run them, bytes in, bytes out; and the command, which
//! proves, builds and runs them.

pub mod drawing;
pub mod listing;
pub mod records;
pub mod run;
pub mod text;
pub mod tree;
