//! What the calls answer.

use crate::{ANSWER_BYTES, PAYLOAD_BYTES, Reply, forwards};

const REPLY: usize = 0;
const ROUTE_LENGTH: usize = 1;
const ROUTE: usize = 2;
const COUNT: usize = 8;
const PAYLOAD: usize = 10;

/// What [`insert`](crate::insert) and [`search`](crate::search) answer, and what [`insert_split`](crate::insert_split)
/// answers of its insert: the block of 24 bytes that the library filled.
///
/// ```
/// # use lhstar::{Reply, create, join, insert, search, file_bytes};
/// # let (mut file, mut table) = ([0; file_bytes(4, 16)], [0; lhstar::CLIENT_BYTES]);
/// # assert_eq!(create(&mut file, 2, 4, 16), Reply::Done);
/// # assert_eq!(join(&mut table, 0), Reply::Done);
/// # for _ in 0..5 { assert_eq!(lhstar::split(&mut file).reply, Reply::Done); }
/// # assert_eq!(insert(&mut file, &mut [b'L', b'C', 2, 0, 2, 0, 0, 0], 0, 5, b"a ride, uphill").reply(), Reply::Done);
/// let answer = search(&file, &mut table, 0, 5);
/// assert_eq!(answer.reply(), Reply::Done);
/// assert!(answer.route().eq([0, 1, 5]));
/// assert_eq!(answer.forwards(), 2);
/// assert_eq!(answer.payload(), b"a ride, uphill");
/// ```
#[must_use = "the call may have been refused"]
#[derive(Clone, Copy, Debug, PartialEq, Eq, Hash)]
pub struct AnswerBlock([u8; ANSWER_BYTES]);

impl AnswerBlock {
    /// The block that a call fills, and what the call returns. It is lent all of the block, which never stays empty.
    pub(crate) fn filled_by<T>(call: impl FnOnce(&mut [u8]) -> T) -> (AnswerBlock, T) {
        let mut block = [0; ANSWER_BYTES];
        let returned = call(&mut block);
        (AnswerBlock(block), returned)
    }

    /// The reply.
    pub fn reply(&self) -> Reply {
        Reply::given(self.0[REPLY].into())
    }

    /// The buckets that the key came by, in order: at most [`ROUTE_MOST`](crate::ROUTE_MOST), none with replies 2 to 6
    /// and 15, and with [`BucketUnsound`](Reply::BucketUnsound) the unsound one last, unless a [`LoadAnswer`] names it.
    pub fn route(&self) -> impl DoubleEndedIterator<Item = u16> + ExactSizeIterator + Clone {
        let numbers = self.0[ROUTE..COUNT].chunks_exact(2).map(|pair| u16::from_le_bytes([pair[0], pair[1]]));
        numbers.take(self.0[ROUTE_LENGTH].into())
    }

    /// How often the key was sent on: the route's buckets less one, or 0 without a route.
    #[must_use]
    pub fn forwards(&self) -> u32 {
        forwards(self)
    }

    /// How many records the bucket holds after an accepted insert and before any split, 1 to 64; else 0. Above the
    /// capacity it is overfull.
    #[must_use]
    pub fn count(&self) -> u8 {
        self.0[COUNT]
    }

    /// The payload that a search found, else zeros.
    #[must_use]
    pub fn payload(&self) -> &[u8; PAYLOAD_BYTES] {
        self.0[PAYLOAD..].first_chunk().expect("the payload ends the block")
    }

    /// The block itself, as C has it.
    #[must_use]
    pub fn as_bytes(&self) -> &[u8; ANSWER_BYTES] {
        &self.0
    }
}

/// What [`split`](crate::split) answers.
#[must_use = "the split may have been refused"]
#[derive(Clone, Copy, Debug, PartialEq, Eq, Hash)]
pub struct SplitAnswer {
    /// The reply.
    pub reply: Reply,
    /// The bucket that was split; with [`BucketUnsound`](Reply::BucketUnsound) the unsound one.
    pub old_bucket: Option<u16>,
    /// The new bucket, if the file was split.
    pub new_bucket: Option<u16>,
}

/// What load control did after an insert: what became of the split of an [`insert_split`](crate::insert_split).
///
/// ```
/// assert_eq!(lhstar::Control::NoRoom as u8, 2);
/// ```
#[repr(u8)]
#[derive(Clone, Copy, Debug, PartialEq, Eq, Hash)]
pub enum Control {
    /// None was due, or the insert was refused.
    NotDue = 0,
    /// The bucket at the split pointer was split.
    Done = 1,
    /// One was due, but the file has its most buckets.
    NoRoom = 2,
}

impl Control {
    const ALL: [Control; 3] = [Control::NotDue, Control::Done, Control::NoRoom];

    /// The outcome that the library gave as a number.
    pub(crate) fn given(number: u32) -> Control {
        Control::ALL[number as usize]
    }
}

/// What [`insert_split`](crate::insert_split) answers.
#[must_use = "the insert may have been refused"]
#[derive(Clone, Copy, Debug, PartialEq, Eq, Hash)]
pub struct LoadAnswer {
    /// The block of the insert: its reply, route and count.
    pub insert: AnswerBlock,
    /// What became of the split.
    pub split: Control,
    /// The bucket that was split; with [`BucketUnsound`](Reply::BucketUnsound) the unsound one, if the route is whole.
    pub old_bucket: Option<u16>,
    /// The new bucket, if the file was split.
    pub new_bucket: Option<u16>,
}

impl LoadAnswer {
    /// The reply.
    pub fn reply(&self) -> Reply {
        self.insert.reply()
    }
}

/// What [`check`](crate::check) answers.
#[must_use = "the file may be unsound"]
#[derive(Clone, Copy, Debug, PartialEq, Eq, Hash)]
pub struct CheckAnswer {
    /// The reply.
    pub reply: Reply,
    /// The lowest unsound region, with [`BucketUnsound`](Reply::BucketUnsound).
    pub bucket: Option<u16>,
}

/// What [`scan`](crate::scan) answers; the two lists are the written parts of those that it was lent.
#[must_use = "the scan may have been refused"]
#[derive(Clone, Copy, Debug, PartialEq, Eq, Hash)]
pub struct ScanAnswer<'lists> {
    /// The reply.
    pub reply: Reply,
    /// The first unsound bucket in visit order, with [`BucketUnsound`](Reply::BucketUnsound).
    pub bucket: Option<u16>,
    /// All buckets as they were visited; empty if the scan was refused.
    pub visits: &'lists [u16],
    /// The matching keys, in visit order and then slot order; empty if the scan was refused.
    pub matches: &'lists [u64],
}

#[cfg(test)]
mod tests {
    use super::*;

    #[test]
    fn each_outcome_stands_at_its_number() {
        for (number, outcome) in Control::ALL.into_iter().enumerate() {
            assert_eq!(outcome as usize, number);
            assert_eq!(Control::given(number as u32), outcome);
        }
    }
}
