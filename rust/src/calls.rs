//! The calls, with types in place of numbers.

use crate::answer::{AnswerBlock, CheckAnswer, Control, LoadAnswer, ScanAnswer, SplitAnswer};
use crate::{NO_BUCKET, PAYLOAD_BYTES, Reply, raw};

/// A bucket's number, where there is one.
fn bucket(number: u32) -> Option<u16> {
    (number != NO_BUCKET).then_some(number as u16)
}

/// Makes a file without records in state (0, 0), one bucket: a capacity of 1 to `slots` records, 1 to 64 slots for each
/// bucket, `most` 1 to 4096 buckets, in exactly [`file_bytes(slots, most)`](crate::file_bytes) bytes.
///
/// Replies: `Figures`, else `Done`. Refused, it leaves the buffer untouched.
///
/// ```
/// use lhstar::{Reply, create, file_bytes};
///
/// let mut file = vec![0; file_bytes(4, 16)];
/// assert_eq!(create(&mut file, 2, 4, 16), Reply::Done);
/// assert_eq!(create(&mut file, 5, 4, 16), Reply::Figures);
/// ```
#[inline]
pub fn create(file: &mut [u8], capacity: u64, slots: u64, most: u64) -> Reply {
    Reply::given(raw::create(file, capacity, slots, most).into())
}

/// Writes the image (0, 0) into the client's record, over any old content. The table has 1 to 256 records of
/// [`CLIENT_BYTES`](crate::CLIENT_BYTES); the first client is 0.
///
/// Replies: `TableLength`, `NoClient`, else `Done`. Refused, it leaves the table untouched.
///
/// ```
/// use lhstar::{CLIENT_BYTES, Reply, join};
///
/// let mut table = [0; 4 * CLIENT_BYTES];
/// assert_eq!(join(&mut table, 3), Reply::Done);
/// assert_eq!(join(&mut table, 4), Reply::NoClient);
/// ```
#[inline]
pub fn join(table: &mut [u8], client: u64) -> Reply {
    Reply::given(raw::join(table, client).into())
}

/// Inserts a record of key and payload by the client's image. The key's upper 32 bits are the lift, its lower 32 bits
/// the ride.
///
/// Replies: `TableLength`, `NoClient`, `ClientUnsound`, `HeaderUnsound`, `ClientAhead`, `BucketUnsound` (the first on
/// the route), `KeyHeld`, `BucketFull`, else `Done`. With `Done` the record stands in its bucket's first free slot.
/// With `Done`, `KeyHeld` and `BucketFull` the image is adjusted if the first bucket sent the key on. Else file and
/// table stay untouched. It never splits: [`AnswerBlock::count`] says how full the bucket is, and [`insert_split`]
/// splits where the load asks for it.
///
/// ```
/// use lhstar::{CLIENT_BYTES, Reply, create, file_bytes, insert, join};
///
/// let mut file = vec![0; file_bytes(4, 16)];
/// let mut table = [0; CLIENT_BYTES];
/// assert_eq!(create(&mut file, 2, 4, 16), Reply::Done);
/// assert_eq!(join(&mut table, 0), Reply::Done);
/// for ride in 1..=3 {
///     let answer = insert(&mut file, &mut table, 0, 7 << 32 | ride, b"a ride, uphill");
///     assert_eq!(answer.reply(), Reply::Done);
///     assert_eq!(u64::from(answer.count()), ride);
/// }
/// assert_eq!(insert(&mut file, &mut table, 0, 7 << 32 | 1, &[0; 14]).reply(), Reply::KeyHeld);
/// ```
#[inline]
pub fn insert(file: &mut [u8], table: &mut [u8], client: u64, key: u64, payload: &[u8; PAYLOAD_BYTES]) -> AnswerBlock {
    AnswerBlock::filled_by(|block| raw::insert(file, table, client, key, payload, block)).0
}

/// Searches a key by the client's image.
///
/// Replies: `TableLength`, `NoClient`, `ClientUnsound`, `HeaderUnsound`, `ClientAhead`, `BucketUnsound` (the first on
/// the route), `Absent`, else `Done`. With `Done` and `Absent` the image is adjusted if the first bucket sent the key
/// on. Else the table stays untouched.
///
/// ```
/// use lhstar::{CLIENT_BYTES, Reply, create, file_bytes, insert, join, search};
///
/// let mut file = vec![0; file_bytes(4, 16)];
/// let mut table = [0; CLIENT_BYTES];
/// assert_eq!(create(&mut file, 2, 4, 16), Reply::Done);
/// assert_eq!(join(&mut table, 0), Reply::Done);
/// assert_eq!(search(&file, &mut table, 0, 5).reply(), Reply::Absent);
/// assert_eq!(insert(&mut file, &mut table, 0, 5, b"a ride, uphill").reply(), Reply::Done);
/// assert_eq!(search(&file, &mut table, 0, 5).payload(), b"a ride, uphill");
/// ```
#[inline]
pub fn search(file: &[u8], table: &mut [u8], client: u64, key: u64) -> AnswerBlock {
    AnswerBlock::filled_by(|block| raw::search(file, table, client, key, block)).0
}

/// Splits bucket n into n and n + 2^i and moves the split pointer on; clients learn of it by their own calls.
///
/// Replies: `HeaderUnsound`, `FileFull`, `BucketUnsound` (bucket n, then the new region), else `Done`. Refused, it
/// leaves the file untouched.
///
/// ```
/// use lhstar::{Reply, create, file_bytes, split};
///
/// let mut file = vec![0; file_bytes(4, 2)];
/// assert_eq!(create(&mut file, 2, 4, 2), Reply::Done);
/// let answer = split(&mut file);
/// assert_eq!((answer.reply, answer.old_bucket, answer.new_bucket), (Reply::Done, Some(0), Some(1)));
/// let answer = split(&mut file);
/// assert_eq!((answer.reply, answer.old_bucket, answer.new_bucket), (Reply::FileFull, None, None));
/// ```
#[inline]
pub fn split(file: &mut [u8]) -> SplitAnswer {
    let raw::SplitAnswer { reply, old_bucket, new_bucket } = raw::split(file);
    SplitAnswer { reply: Reply::given(reply), old_bucket: bucket(old_bucket), new_bucket: bucket(new_bucket) }
}

/// Inserts as [`insert`] does, decides by the load whether a split is due, and does it: all that a coordinator with
/// load control has to call.
///
/// Where the key's bucket s then holds x records, more than the capacity b, a split is due if 100 * 2^i * x * f >
/// threshold * b * (2^i + n), with f = 2 if s < n or s >= 2^i and else 1, in the state (i, n) before it. Bucket n is
/// split, which may be s or another. In a file of its most buckets the record is only inserted.
///
/// Replies: `Threshold` (not 1 to [`THRESHOLD_MOST`](crate::THRESHOLD_MOST)), `TableLength`, `NoClient`,
/// `ClientUnsound`, `HeaderUnsound`, `ClientAhead`, `BucketUnsound` (the first on the route), `KeyHeld`, `BucketFull`,
/// `BucketUnsound` (bucket n, then the new region, where the insert would be accepted and a split is due and possible),
/// else `Done`. With `Done`, `KeyHeld` and `BucketFull` the image is adjusted if the first bucket sent the key on. Else
/// file and table stay untouched: with the last `BucketUnsound` nothing is placed.
///
/// ```
/// use lhstar::{CLIENT_BYTES, Reply, Control, create, file_bytes, insert_split, join};
///
/// let mut file = vec![0; file_bytes(4, 2)];
/// let mut table = [0; CLIENT_BYTES];
/// assert_eq!(create(&mut file, 2, 4, 2), Reply::Done);
/// assert_eq!(join(&mut table, 0), Reply::Done);
/// let mut put = |key| {
///     let answer = insert_split(&mut file, &mut table, 0, key, b"a ride, uphill", 80);
///     assert_eq!(answer.reply(), Reply::Done);
///     (answer.insert.count(), answer.split, answer.old_bucket, answer.new_bucket)
/// };
/// assert_eq!(put(1), (1, Control::NotDue, None, None));
/// assert_eq!(put(3), (2, Control::NotDue, None, None));
/// assert_eq!(put(5), (3, Control::Done, Some(0), Some(1)));
/// assert_eq!(put(7), (4, Control::NoRoom, None, None));
/// ```
#[inline]
pub fn insert_split(
    file: &mut [u8],
    table: &mut [u8],
    client: u64,
    key: u64,
    payload: &[u8; PAYLOAD_BYTES],
    threshold: u64,
) -> LoadAnswer {
    let call = |block: &mut [u8]| raw::insert_split(file, table, client, key, payload, threshold, block);
    let (insert, raw::LoadAnswer { split, old_bucket, new_bucket, .. }) = AnswerBlock::filled_by(call);
    LoadAnswer { insert, split: Control::given(split), old_bucket: bucket(old_bucket), new_bucket: bucket(new_bucket) }
}

/// Scans every bucket by the client's image for the keys of one lift. It writes the numbers of the buckets as they are
/// visited, and the matching keys; entries past those written keep their content.
///
/// Replies: `TableLength`, `NoClient`, `ClientUnsound`, `HeaderUnsound`, `ClientAhead`, `VisitsShort`, `BucketUnsound`
/// (the first in visit order), `MatchesShort`, else `Done`. Refused, it leaves both lists untouched.
///
/// ```
/// use lhstar::{CLIENT_BYTES, Reply, create, file_bytes, insert, join, scan, split};
///
/// let mut file = vec![0; file_bytes(4, 16)];
/// let mut table = [0; CLIENT_BYTES];
/// assert_eq!(create(&mut file, 2, 4, 16), Reply::Done);
/// assert_eq!(join(&mut table, 0), Reply::Done);
/// for key in [7 << 32 | 1, 8 << 32 | 2, 7 << 32 | 4] {
///     assert_eq!(insert(&mut file, &mut table, 0, key, &[0; 14]).reply(), Reply::Done);
/// }
/// assert_eq!(split(&mut file).reply, Reply::Done);
///
/// let (mut visits, mut matches) = ([0; 16], [0; 64]);
/// let answer = scan(&file, &table, 0, 7, &mut visits, &mut matches);
/// assert_eq!(answer.reply, Reply::Done);
/// assert_eq!(answer.visits, [0, 1]);
/// assert_eq!(answer.matches, [7 << 32 | 4, 7 << 32 | 1]);
/// ```
#[inline]
pub fn scan<'lists>(
    file: &[u8],
    table: &[u8],
    client: u64,
    lift: u32,
    visits: &'lists mut [u16],
    matches: &'lists mut [u64],
) -> ScanAnswer<'lists> {
    let given = raw::scan(file, table, client, lift, visits, matches);
    ScanAnswer {
        reply: Reply::given(given.reply),
        bucket: bucket(given.bucket),
        visits: &visits[..given.visits as usize],
        matches: &matches[..given.matches as usize],
    }
}

/// Judges the whole file: header and all regions, those past the last bucket too.
///
/// Replies: `HeaderUnsound`, `BucketUnsound`, else `Done`.
///
/// ```
/// use lhstar::{HEADER_BYTES, Reply, check, create, file_bytes, region_bytes};
///
/// let mut file = vec![0; file_bytes(4, 16)];
/// assert_eq!(create(&mut file, 2, 4, 16), Reply::Done);
/// assert_eq!(check(&file).reply, Reply::Done);
/// file[HEADER_BYTES + 3 * region_bytes(4)] = 1;
/// let answer = check(&file);
/// assert_eq!((answer.reply, answer.bucket), (Reply::BucketUnsound, Some(3)));
/// ```
#[inline]
pub fn check(file: &[u8]) -> CheckAnswer {
    let given = raw::check(file);
    CheckAnswer { reply: Reply::given(given.reply), bucket: bucket(given.bucket) }
}

/// A bucket's used slots, as they stand in the file: each a mark of 2 bytes, the key in 8 and the payload in 14. Empty
/// if the header is unsound, the number is too high or the bucket is unsound.
///
/// ```
/// use lhstar::{CLIENT_BYTES, Reply, SLOT_BYTES, create, file_bytes, insert, join, view};
///
/// let mut file = vec![0; file_bytes(4, 16)];
/// let mut table = [0; CLIENT_BYTES];
/// assert_eq!(create(&mut file, 2, 4, 16), Reply::Done);
/// assert_eq!(join(&mut table, 0), Reply::Done);
/// assert_eq!(insert(&mut file, &mut table, 0, 5, b"a ride, uphill").reply(), Reply::Done);
/// for slot in view(&file, 0).chunks_exact(SLOT_BYTES) {
///     assert_eq!(slot, b"LR\x05\0\0\0\0\0\0\0a ride, uphill");
/// }
/// assert!(view(&file, 1).is_empty());
/// ```
#[inline]
#[must_use]
pub fn view(file: &[u8], bucket: u64) -> &[u8] {
    let part = raw::view(file, bucket);
    &file[part.start as usize..][..part.length as usize]
}

/// The bucket that this one was split from; bucket 0 has none.
///
/// ```
/// assert_eq!(lhstar::parent(5), Some(1));
/// assert_eq!(lhstar::parent(0), None);
/// ```
#[inline]
#[must_use]
pub fn parent(bucket: u16) -> Option<u16> {
    self::bucket(raw::parent(bucket))
}

/// How often the key of an answer was sent on: the route's buckets less one, or 0 without a route.
///
/// ```
/// use lhstar::{CLIENT_BYTES, Reply, create, file_bytes, forwards, join, search, split};
///
/// let mut file = vec![0; file_bytes(4, 16)];
/// let mut table = [0; CLIENT_BYTES];
/// assert_eq!(create(&mut file, 2, 4, 16), Reply::Done);
/// assert_eq!(join(&mut table, 0), Reply::Done);
/// assert_eq!(split(&mut file).reply, Reply::Done);
/// assert_eq!(forwards(&search(&file, &mut table, 0, 5)), 1);
/// assert_eq!(forwards(&search(&file, &mut table, 0, 5)), 0);
/// ```
#[inline]
#[must_use]
pub fn forwards(answer: &AnswerBlock) -> u32 {
    raw::forwards(answer.as_bytes())
}
