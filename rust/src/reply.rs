//! The numbered replies.

use core::fmt;

/// What a call says of itself. Each has its number, `Reply::Absent as u8` is 1; a call gives the first, in the order
/// named at the call, whose condition holds.
///
/// ```
/// use lhstar::Reply;
///
/// assert_eq!(Reply::BucketFull as u8, 9);
/// assert_eq!(Reply::try_from(9), Ok(Reply::BucketFull));
/// assert_eq!(Reply::try_from(16), Err(16));
/// assert_eq!(Reply::KeyHeld.to_string(), "the key is already held");
/// ```
#[must_use = "a call may have been refused"]
#[repr(u8)]
#[derive(Clone, Copy, Debug, PartialEq, Eq, Hash)]
pub enum Reply {
    /// Done, or found.
    Done = 0,
    /// Search: the key is not in the file.
    Absent = 1,
    /// The client table's length is 0, over 2048 or no multiple of 8.
    TableLength = 2,
    /// No such client.
    NoClient = 3,
    /// The client's record is ill formed, or its image is none: i' > 12 or n' >= 2^i'.
    ClientUnsound = 4,
    /// The file's length or header is unsound.
    HeaderUnsound = 5,
    /// The client believes in more buckets than the file has.
    ClientAhead = 6,
    /// A bucket needed is unsound; its number is given.
    BucketUnsound = 7,
    /// Insert: the key is already held.
    KeyHeld = 8,
    /// Insert: every slot of the key's bucket is in use.
    BucketFull = 9,
    /// Split: the file has its most buckets.
    FileFull = 10,
    /// Scan: the visit list is shorter than the bucket count.
    VisitsShort = 11,
    /// Scan: the match list is shorter than the matches.
    MatchesShort = 12,
    /// Create: the figures are out of range, or not the file's length.
    Figures = 13,
    /// The answer block is not 24 bytes, or insert's payload not 14. Only the calls of [`raw`](crate::raw) give it.
    BlockLength = 14,
    /// Insert with load control: the threshold is not 1 to [`THRESHOLD_MOST`](crate::THRESHOLD_MOST).
    Threshold = 15,
}

impl Reply {
    const ALL: [Reply; 16] = [
        Reply::Done,
        Reply::Absent,
        Reply::TableLength,
        Reply::NoClient,
        Reply::ClientUnsound,
        Reply::HeaderUnsound,
        Reply::ClientAhead,
        Reply::BucketUnsound,
        Reply::KeyHeld,
        Reply::BucketFull,
        Reply::FileFull,
        Reply::VisitsShort,
        Reply::MatchesShort,
        Reply::Figures,
        Reply::BlockLength,
        Reply::Threshold,
    ];

    /// The reply that the library gave as a number.
    pub(crate) fn given(number: u32) -> Reply {
        Reply::ALL[number as usize]
    }

    /// Whether the call was refused: any reply but [`Done`](Reply::Done) and [`Absent`](Reply::Absent).
    #[must_use]
    pub const fn is_refusal(self) -> bool {
        !matches!(self, Reply::Done | Reply::Absent)
    }
}

/// The reply of a number, or that number if no reply has it.
impl TryFrom<u8> for Reply {
    type Error = u8;

    fn try_from(number: u8) -> Result<Reply, u8> {
        Reply::ALL.get(usize::from(number)).copied().ok_or(number)
    }
}

impl fmt::Display for Reply {
    fn fmt(&self, formatter: &mut fmt::Formatter) -> fmt::Result {
        formatter.write_str(match self {
            Reply::Done => "done",
            Reply::Absent => "the key is not in the file",
            Reply::TableLength => "the client table's length is 0, over 2048 or no multiple of 8",
            Reply::NoClient => "no such client",
            Reply::ClientUnsound => "the client's record is unsound",
            Reply::HeaderUnsound => "the file's length or header is unsound",
            Reply::ClientAhead => "the client believes in more buckets than the file has",
            Reply::BucketUnsound => "a bucket needed is unsound",
            Reply::KeyHeld => "the key is already held",
            Reply::BucketFull => "every slot of the key's bucket is in use",
            Reply::FileFull => "the file has its most buckets",
            Reply::VisitsShort => "the visit list is shorter than the bucket count",
            Reply::MatchesShort => "the match list is shorter than the matches",
            Reply::Figures => "the figures are out of range, or not the file's length",
            Reply::BlockLength => "the answer block is not 24 bytes, or the payload not 14",
            Reply::Threshold => "the threshold is not 1 to 100",
        })
    }
}

impl core::error::Error for Reply {}

#[cfg(test)]
mod tests {
    use super::*;

    #[test]
    fn each_reply_stands_at_its_number() {
        for (number, reply) in Reply::ALL.into_iter().enumerate() {
            assert_eq!(reply as usize, number);
            assert_eq!(Reply::given(number as u32), reply);
        }
    }
}
