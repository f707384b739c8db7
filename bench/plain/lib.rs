//! The rules of document 01, in form 1 of W-202, in place and without proofs: the same chips and bytes, the state a struct that the
//! calls change; W-203's conversions, W-205's lookup and W-207's counts; with cfg(tolerant) W-209's search, with
//! cfg(kept) W-210's counts.
#![no_std]
#![forbid(unsafe_code)]

mod append;
mod bloom;
mod bytes;
mod carry;
mod close;
mod form;
mod header;
#[cfg(kept)]
mod kept;
mod matches;
mod plate;
mod query;
mod split;
mod state;
#[cfg(tolerant)]
mod tolerant;
mod tree;

pub use form::{OldState, OLD_STATE_BYTES};
#[cfg(kept)]
pub use kept::Kept;
pub use plate::{plate_of, plate_on, Counts};
pub use query::{Found, PagesRead, Window};
pub use state::{Pointer, State, STATE_BYTES};
#[cfg(tolerant)]
pub use tolerant::Tolerated;

/// The grounds by their numbers.
#[repr(u8)]
#[derive(Clone, Copy, Debug, PartialEq, Eq)]
pub enum Ground {
    NandSize = 1,
    NorSize,
    StateBound,
    TimeLimit,
    LoadLimit,
    BackwardRange,
    TimeBelowLast,
    SerialsUsedUp,
    NothingThere,
    Damage,
    PageNotErased,
    AreaTooSmall,
    OtherForm,
    NoWayBack,
    NoStack,
    #[cfg(tolerant)]
    TooTolerant = 17,
}

pub const TIME_MAX: u64 = 999_999_999_999_999;
pub const LOAD_MIN: i32 = -50_000;
pub const LOAD_MAX: i32 = 100_000;
pub const PAGE_BYTES: usize = 512;
pub const SLOT_BYTES: usize = 16_384;
pub const NOR_BYTES: usize = 6_144;
pub const RECORD_BYTES: usize = 32;

pub(crate) const LOAD_OFFSET: i32 = 50_001;
pub(crate) const CODE_MAX: u32 = 150_001;
pub(crate) const LIFTS_MAX: u16 = 320;
pub(crate) const BUCKETS_MAX: u8 = 36;
pub(crate) const LIFTS_PER_PAGE: usize = 16;
pub(crate) const LIFTS_PER_SECTION: usize = 64;
pub(crate) const TREE_PAGE: usize = 20;
pub(crate) const BLOOM_PAGE: usize = 29;
pub(crate) const HEADER_PAGE: usize = 31;

pub(crate) fn load_ok(load: i32) -> bool {
    (LOAD_MIN..=LOAD_MAX).contains(&load)
}

/// A load as it is stored.
pub(crate) fn stored(load: i32) -> u32 {
    (load + LOAD_OFFSET) as u32
}
