//! An LH* file over lent memory: records of a 64-bit key and 14 bytes of payload, spread over buckets that split one
//! after another as the file grows, found by clients whose picture of the file may be old.
//!
//! The calls are those of a library that is proved against its contracts and linked as an archive. The caller lends
//! every buffer; the library keeps nothing between calls. The file buffer is the file, the table buffer holds the
//! clients' images. Numbers of more than one byte are little-endian.
//!
//! The file is in state (i, n), its level and its split pointer, and has 2^i + n buckets. A client's image (i', n') is
//! what it believes of that state. A key may therefore be sent to a bucket that is not its own and be sent on from
//! there, at most twice; the buckets it comes by are its route.
//!
//! ```
//! use lhstar::{CLIENT_BYTES, Reply, file_bytes};
//!
//! let mut file = [0; file_bytes(4, 16)];
//! let mut table = [0; 2 * CLIENT_BYTES];
//! assert_eq!(lhstar::create(&mut file, 2, 4, 16), Reply::Done);
//! assert_eq!(lhstar::join(&mut table, 0), Reply::Done);
//! assert_eq!(lhstar::join(&mut table, 1), Reply::Done);
//!
//! for key in 1..=6 {
//!     let answer = lhstar::insert_split(&mut file, &mut table, 0, key, b"a ride, uphill", 80);
//!     assert_eq!(answer.reply(), Reply::Done);
//! }
//!
//! let answer = lhstar::search(&file, &mut table, 1, 5);
//! assert_eq!(answer.reply(), Reply::Done);
//! assert_eq!(answer.payload(), b"a ride, uphill");
//! ```
//!
//! # Linking
//!
//! The build looks for `liblhstar.a`, which `make` writes, in `../target/staticlib`, or in the folder
//! that the variable `LHSTAR_LIB_DIR` names. The archive is for x86-64.

#![no_std]
#![deny(missing_docs)]

mod answer;
mod boundary;
mod calls;
pub mod raw;
mod reply;

pub use answer::{AnswerBlock, CheckAnswer, Control, LoadAnswer, ScanAnswer, SplitAnswer};
pub use calls::{check, create, forwards, insert, insert_split, join, parent, scan, search, split, view};
pub use reply::Reply;

/// Stands where there is no bucket, in the answers of [`raw`].
pub const NO_BUCKET: u32 = 65_535;

/// The greatest threshold of [`insert_split`], in percent; the least is 1.
pub const THRESHOLD_MOST: u64 = 100;

/// The most buckets of a route.
pub const ROUTE_MOST: usize = 3;

/// The bytes of an answer block.
pub const ANSWER_BYTES: usize = 24;

/// The bytes of a payload.
pub const PAYLOAD_BYTES: usize = 14;

/// The bytes of one client's record in the table.
pub const CLIENT_BYTES: usize = 8;

/// The bytes of a file's header.
pub const HEADER_BYTES: usize = 16;

/// The bytes of a bucket's head, before its slots.
pub const HEAD_BYTES: usize = 8;

/// The bytes of a slot: a mark of 2, the key, the payload.
pub const SLOT_BYTES: usize = 24;

/// The bytes of a bucket's region with so many slots.
///
/// ```
/// assert_eq!(lhstar::region_bytes(4), 104);
/// ```
#[must_use]
pub const fn region_bytes(slots: u64) -> usize {
    HEAD_BYTES + SLOT_BYTES * slots as usize
}

/// The bytes of a file with so many slots for each bucket and so many buckets at most. The figures are those of
/// [`create`], 1 to 64 and 1 to 4096.
///
/// ```
/// const FILE_BYTES: usize = lhstar::file_bytes(4, 16);
/// assert_eq!(FILE_BYTES, 1680);
/// ```
#[must_use]
pub const fn file_bytes(slots: u64, most: u64) -> usize {
    HEADER_BYTES + most as usize * region_bytes(slots)
}
