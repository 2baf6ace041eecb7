//! The twin: an LH* file over lent memory, written a second time from the
//! documents alone, to be compared with the proved library and raced with it.

pub mod bucket;
pub mod client;
pub mod file;
pub mod judge;
pub mod load;
pub mod random;
pub mod ride;
pub mod ridefile;
pub mod rules;
pub mod scan;
#[cfg(feature = "library")]
pub mod sides;

pub use client::join;
pub use file::{check, create, split, view, CheckAnswer, SplitAnswer, ViewAnswer};
pub use load::{insert_split, LoadAnswer};
pub use ride::{forwards, insert, search};
pub use rules::parent;
pub use scan::{scan, ScanAnswer};

/// Stands where there is no bucket.
pub const NONE: u16 = 65_535;

/// The numbered replies.
pub mod reply {
    pub const DONE: u8 = 0;
    pub const ABSENT: u8 = 1;
    pub const TABLE_LENGTH: u8 = 2;
    pub const NO_CLIENT: u8 = 3;
    pub const CLIENT_RECORD: u8 = 4;
    pub const HEADER: u8 = 5;
    pub const AHEAD: u8 = 6;
    pub const UNSOUND: u8 = 7;
    pub const HELD: u8 = 8;
    pub const FULL: u8 = 9;
    pub const ALL_BUCKETS: u8 = 10;
    pub const VISITS_SHORT: u8 = 11;
    pub const MATCHES_SHORT: u8 = 12;
    pub const FIGURES: u8 = 13;
    pub const BLOCK_LENGTH: u8 = 14;
    pub const THRESHOLD: u8 = 15;
}
