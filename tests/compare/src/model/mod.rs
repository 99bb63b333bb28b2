//! Document 01 ("Build definition and exact rules") as plain Rust, written from
//! that document alone. It is meant to be read beside it; speed does not matter.

mod act;
mod builder;
pub mod layout;
pub mod run;
pub mod session;
pub mod sheet;
#[cfg(test)]
mod worked;
