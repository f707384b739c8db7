//! Document 01, with W-201 to W-211, read a second time: the paper log, the programs' inputs, and an expectation of every
//! byte.
pub mod answers;
pub mod bytes;
pub mod counts;
pub mod limits;
pub mod lines;
pub mod load_tree;
pub mod pairs;
pub mod paper;
pub mod plate;
pub mod service_page;
pub mod split;
pub mod stacks;
pub mod text;
pub mod tolerant;
