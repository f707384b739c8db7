//! The script format of the tests: its commands, the areas they work on, and the lines that answer them.
pub mod areas;
pub mod calls;
pub mod command;
pub mod form;
pub mod hash;
pub mod interpreter;
pub mod parse;
