//! The commands, one module for each or for those that are alike.

pub mod change;
pub mod check;
pub mod get;
pub mod help;
pub mod into;
pub mod ls;
pub mod many;
pub mod program;
pub mod put;
pub mod salvage;
pub mod samples;
pub mod table;
