//! The calls as C has them: slices of any length, plain numbers in and out.
//!
//! Nothing is judged or turned into other types here, so a buffer of a wrong length reaches the library, which refuses
//! it. The functions at the crate's root are over these. A bucket's number is [`NO_BUCKET`](crate::NO_BUCKET) where
//! there is none.
//!
//! ```
//! let mut short = [0; 23];
//! assert_eq!(lhstar::raw::search(&[], &mut [], 0, 5, &mut short), lhstar::Reply::BlockLength as u8);
//! ```

// What each unsafe block below leans on: a slice's pointer is never null and is aligned for its entries, its length is
// its own, and it is lent for as long as the call lasts. No two slices of a call overlap where one of them is lent for
// writing; two that are only read may, since nothing is written through either. The library reads and writes within the
// lengths, writes to nothing that it is lent for reading, and keeps no pointer.

use crate::boundary;

/// What [`split`] answers.
#[repr(C)]
#[derive(Clone, Copy, Debug, PartialEq, Eq)]
pub struct SplitAnswer {
    /// The reply.
    pub reply: u32,
    /// With 0 the bucket that was split, with 7 the unsound one.
    pub old_bucket: u32,
    /// With 0 the new bucket.
    pub new_bucket: u32,
}

/// What [`insert_split`] answers.
#[repr(C)]
#[derive(Clone, Copy, Debug, PartialEq, Eq)]
pub struct LoadAnswer {
    /// The reply.
    pub reply: u32,
    /// What became of the split: 0 not due, 1 done, 2 due in a file of its most buckets. With every refusal 0.
    pub split: u32,
    /// Where a split was done the bucket that was split; with 7 of the split the unsound one.
    pub old_bucket: u32,
    /// Where a split was done the new bucket.
    pub new_bucket: u32,
}

/// What [`check`] answers.
#[repr(C)]
#[derive(Clone, Copy, Debug, PartialEq, Eq)]
pub struct CheckAnswer {
    /// The reply.
    pub reply: u32,
    /// With 7 the lowest unsound region.
    pub bucket: u32,
}

/// What [`scan`] answers.
#[repr(C)]
#[derive(Clone, Copy, Debug, PartialEq, Eq)]
pub struct ScanAnswer {
    /// The reply.
    pub reply: u32,
    /// With 7 the unsound bucket.
    pub bucket: u32,
    /// With 0 how many entries the visit list got, else 0.
    pub visits: u32,
    /// With 0 how many entries the match list got, else 0.
    pub matches: u32,
}

/// What [`view`] answers: a part of the file, in bytes; 0 and 0 where it is empty.
#[repr(C)]
#[derive(Clone, Copy, Debug, PartialEq, Eq)]
pub struct ViewAnswer {
    /// Where the part starts.
    pub start: u64,
    /// How long it is.
    pub length: u64,
}

/// [`create`](crate::create), its reply as a number.
#[inline]
pub fn create(file: &mut [u8], capacity: u64, slots: u64, most: u64) -> u8 {
    // SAFETY: pointer and length are of one slice, lent for this call.
    unsafe { boundary::lhstar_create(file.as_mut_ptr(), file.len(), capacity, slots, most) }
}

/// [`join`](crate::join), its reply as a number.
#[inline]
pub fn join(table: &mut [u8], client: u64) -> u8 {
    // SAFETY: pointer and length are of one slice, lent for this call.
    unsafe { boundary::lhstar_join(table.as_mut_ptr(), table.len(), client) }
}

/// [`insert`](crate::insert), with a payload and an answer block of any length, its reply as a number. With 14 the
/// block stays as it was.
#[inline]
pub fn insert(file: &mut [u8], table: &mut [u8], client: u64, key: u64, payload: &[u8], answer: &mut [u8]) -> u8 {
    // SAFETY: each pointer and length are of one slice, lent for this call; the three lent for writing overlap nothing.
    unsafe {
        boundary::lhstar_insert(
            file.as_mut_ptr(),
            file.len(),
            table.as_mut_ptr(),
            table.len(),
            client,
            key,
            payload.as_ptr(),
            payload.len(),
            answer.as_mut_ptr(),
            answer.len(),
        )
    }
}

/// [`search`](crate::search), with an answer block of any length, its reply as a number. With 14 the block stays as it
/// was.
#[inline]
pub fn search(file: &[u8], table: &mut [u8], client: u64, key: u64, answer: &mut [u8]) -> u8 {
    // SAFETY: each pointer and length are of one slice, lent for this call; the two lent for writing overlap nothing.
    unsafe {
        boundary::lhstar_search(
            file.as_ptr(),
            file.len(),
            table.as_mut_ptr(),
            table.len(),
            client,
            key,
            answer.as_mut_ptr(),
            answer.len(),
        )
    }
}

/// [`split`](crate::split), its answer in numbers.
#[inline]
pub fn split(file: &mut [u8]) -> SplitAnswer {
    // SAFETY: pointer and length are of one slice, lent for this call.
    unsafe { boundary::lhstar_split(file.as_mut_ptr(), file.len()) }
}

/// [`insert_split`](crate::insert_split), with a payload and an answer block of any length, its answer in numbers. With
/// 14 the block stays as it was.
#[inline]
pub fn insert_split(
    file: &mut [u8],
    table: &mut [u8],
    client: u64,
    key: u64,
    payload: &[u8],
    threshold: u64,
    answer: &mut [u8],
) -> LoadAnswer {
    // SAFETY: each pointer and length are of one slice, lent for this call; the three lent for writing overlap nothing.
    unsafe {
        boundary::lhstar_insert_split(
            file.as_mut_ptr(),
            file.len(),
            table.as_mut_ptr(),
            table.len(),
            client,
            key,
            payload.as_ptr(),
            payload.len(),
            threshold,
            answer.as_mut_ptr(),
            answer.len(),
        )
    }
}

/// [`check`](crate::check), its answer in numbers.
#[inline]
pub fn check(file: &[u8]) -> CheckAnswer {
    // SAFETY: pointer and length are of one slice, lent for this call.
    unsafe { boundary::lhstar_check(file.as_ptr(), file.len()) }
}

/// [`scan`](crate::scan), its answer in numbers.
#[inline]
pub fn scan(file: &[u8], table: &[u8], client: u64, lift: u32, visits: &mut [u16], matches: &mut [u64]) -> ScanAnswer {
    // SAFETY: each pointer and length are of one slice, lent for this call; the two lists lent for writing overlap
    // nothing, and file and table are only read.
    unsafe {
        boundary::lhstar_scan(
            file.as_ptr(),
            file.len(),
            table.as_ptr(),
            table.len(),
            client,
            lift,
            visits.as_mut_ptr(),
            visits.len(),
            matches.as_mut_ptr(),
            matches.len(),
        )
    }
}

/// [`view`](crate::view), its answer as a place in the file.
#[inline]
pub fn view(file: &[u8], bucket: u64) -> ViewAnswer {
    // SAFETY: pointer and length are of one slice, lent for this call.
    unsafe { boundary::lhstar_view(file.as_ptr(), file.len(), bucket) }
}

/// [`parent`](crate::parent), its answer as a number.
#[inline]
pub fn parent(bucket: u16) -> u32 {
    boundary::lhstar_parent(bucket)
}

/// [`forwards`](crate::forwards) of a block of any length; 0 if it is not 24 bytes.
#[inline]
pub fn forwards(answer: &[u8]) -> u32 {
    // SAFETY: pointer and length are of one slice, lent for this call.
    unsafe { boundary::lhstar_forwards(answer.as_ptr(), answer.len()) }
}
