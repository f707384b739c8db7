//! The expectation of every byte, over whatever chips and states are handed over: document 01 in its own form 0 and in
//! form 1 of W-202, W-203's conversions, W-208's pairs, W-209's tolerant search, W-210's kept counts and W-211's text.
mod append;
mod bloom;
mod bucket;
mod calls;
mod carry;
mod close;
mod counts;
mod header;
mod insert;
mod numbers;
mod pairs;
mod search;
mod state;
mod text;
mod tolerant;
mod work;

pub use calls::{found, Expectation};
pub use pairs::pairs_found;
pub use text::exported;
pub use tolerant::{tolerant_found, widened};
