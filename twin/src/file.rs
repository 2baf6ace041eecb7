//! The file: its header, its regions, and the calls that need no client.

use crate::bucket::{self, HEAD_LENGTH, MOST_SLOTS, SLOT_LENGTH};
use crate::rules::State;
use crate::{judge, reply, NONE};

const HEADER_LENGTH: usize = 16;
const MARK: u16 = u16::from_le_bytes(*b"LF");
const MOST_BUCKETS: u64 = 4_096;
const HIGHEST_LEVEL: u32 = 12;

/// A sound header, read once in a call.
#[derive(Clone, Copy, Debug)]
pub struct Header {
    pub state: State,
    pub capacity: u32,
    pub slots: usize,
    pub most: u32,
}

/// Whether the figures are in range and the length is theirs.
#[inline]
fn figures_fit(length: usize, capacity: u64, slots: u64, most: u64) -> bool {
    let in_range = (1..=MOST_SLOTS as u64).contains(&slots)
        && (1..=slots).contains(&capacity)
        && (1..=MOST_BUCKETS).contains(&most);
    in_range && length == HEADER_LENGTH + most as usize * region_length(slots as usize)
}

#[inline]
fn region_length(slots: usize) -> usize {
    HEAD_LENGTH + SLOT_LENGTH * slots
}

impl Header {
    /// The header of a file, if it and the file's length are sound.
    #[inline]
    pub fn read(file: &[u8]) -> Option<Header> {
        let head: &[u8; HEADER_LENGTH] = file.first_chunk()?;
        let first = bucket::word(&head[..8]);
        let level = u32::from((first >> 16) as u8);
        let capacity = u64::from((first >> 24) as u8);
        let pointer = u32::from((first >> 32) as u16);
        let most = first >> 48;
        // One byte and the zeros behind it: if one of those is not zero, this number is out of range.
        let slots = bucket::word(&head[8..]);
        if first as u16 != MARK || level > HIGHEST_LEVEL || !figures_fit(file.len(), capacity, slots, most) {
            return None;
        }
        let state = State { level, pointer };
        let most = most as u32;
        if pointer >> level != 0 || state.bucket_count() > most {
            return None;
        }
        Some(Header { state, capacity: capacity as u32, slots: slots as usize, most })
    }

    /// Where a bucket's region starts in the file.
    #[inline]
    pub fn region_start(&self, bucket: u32) -> usize {
        HEADER_LENGTH + bucket as usize * region_length(self.slots)
    }

    #[inline]
    pub fn region_at<'file>(&self, file: &'file [u8], start: usize) -> &'file [u8] {
        &file[start..start + region_length(self.slots)]
    }

    #[inline]
    pub fn region<'file>(&self, file: &'file [u8], bucket: u32) -> &'file [u8] {
        self.region_at(file, self.region_start(bucket))
    }

    #[inline]
    pub fn region_mut<'file>(&self, file: &'file mut [u8], bucket: u32) -> &'file mut [u8] {
        &mut file[self.region_start(bucket)..][..region_length(self.slots)]
    }

    /// A bucket's count of records, if it is sound.
    #[inline(always)]
    pub fn judge(&self, file: &[u8], bucket: u32) -> Option<usize> {
        let (region, level) = (self.region(file, bucket), self.state.level_of(bucket));
        bucket::count_of(region, level).filter(|&count| judge::sound(region, count, bucket, level))
    }

    /// Whether the file has fewer than its most buckets.
    #[inline]
    pub fn has_room(&self) -> bool {
        self.state.bucket_count() < self.most
    }

    /// The bucket that a split divides, and the one that is then born.
    #[inline]
    pub fn split_buckets(&self) -> (u32, u32) {
        (self.state.pointer, self.state.bucket_count())
    }

    /// Whether the region of a bucket to be born is sound.
    #[inline]
    pub fn can_be_born(&self, file: &[u8], bucket: u32) -> bool {
        bucket::all_zero(self.region(file, bucket))
    }

    /// Splits the bucket at the pointer, which has `count` records; it and the new region are sound.
    #[inline]
    pub fn grow(&self, file: &mut [u8], count: usize) {
        let (old_bucket, new_bucket) = self.split_buckets();
        let (lower, upper) = file.split_at_mut(self.region_start(new_bucket));
        let old = self.region_mut(lower, old_bucket);
        let newborn = &mut upper[..region_length(self.slots)];
        bucket::divide(old, newborn, count, self.state.level);
        write_state(file, self.state.grown());
    }
}

fn write_state(file: &mut [u8], state: State) {
    file[2] = state.level as u8;
    file[4..6].copy_from_slice(&(state.pointer as u16).to_le_bytes());
}

/// Writes the sound file in state (0, 0) without records.
pub fn create(file: &mut [u8], capacity: u64, slots: u64, most: u64) -> u8 {
    if !figures_fit(file.len(), capacity, slots, most) {
        return reply::FIGURES;
    }
    file.fill(0);
    file[..2].copy_from_slice(&MARK.to_le_bytes());
    file[3] = capacity as u8;
    file[6..8].copy_from_slice(&(most as u16).to_le_bytes());
    file[8] = slots as u8;
    bucket::write_head(&mut file[HEADER_LENGTH..], 0, 0);
    reply::DONE
}

#[derive(Clone, Copy, Debug, PartialEq, Eq)]
pub struct CheckAnswer {
    pub reply: u32,
    pub bucket: u32,
}

/// Judges the header and all regions.
pub fn check(file: &[u8]) -> CheckAnswer {
    let (reply, bucket) = match Header::read(file) {
        None => (reply::HEADER, u32::from(NONE)),
        Some(header) => match lowest_unsound(&header, file) {
            Some(bucket) => (reply::UNSOUND, bucket),
            None => (reply::DONE, u32::from(NONE)),
        },
    };
    CheckAnswer { reply: reply.into(), bucket }
}

fn lowest_unsound(header: &Header, file: &[u8]) -> Option<u32> {
    let buckets = header.state.bucket_count();
    let bucket = (0..buckets).find(|&bucket| header.judge(file, bucket).is_none());
    bucket.or_else(|| {
        let past = header.region_start(buckets);
        if bucket::all_zero(&file[past..]) {
            return None;
        }
        (buckets..header.most).find(|&region| !bucket::all_zero(header.region(file, region)))
    })
}

#[derive(Clone, Copy, Debug, PartialEq, Eq)]
pub struct SplitAnswer {
    pub reply: u32,
    pub old_bucket: u32,
    pub new_bucket: u32,
}

impl SplitAnswer {
    fn refused(reply: u8, bucket: u32) -> SplitAnswer {
        SplitAnswer { reply: reply.into(), old_bucket: bucket, new_bucket: NONE.into() }
    }
}

/// Splits the bucket at the pointer.
pub fn split(file: &mut [u8]) -> SplitAnswer {
    let Some(header) = Header::read(file) else {
        return SplitAnswer::refused(reply::HEADER, NONE.into());
    };
    let (old_bucket, new_bucket) = header.split_buckets();
    if !header.has_room() {
        return SplitAnswer::refused(reply::ALL_BUCKETS, NONE.into());
    }
    let Some(count) = header.judge(file, old_bucket) else {
        return SplitAnswer::refused(reply::UNSOUND, old_bucket);
    };
    if !header.can_be_born(file, new_bucket) {
        return SplitAnswer::refused(reply::UNSOUND, new_bucket);
    }
    header.grow(file, count);
    SplitAnswer { reply: reply::DONE.into(), old_bucket, new_bucket }
}

#[derive(Clone, Copy, Debug, Default, PartialEq, Eq)]
pub struct ViewAnswer {
    pub start: u64,
    pub length: u64,
}

/// Where a bucket's used slots stand in the file; 0 and 0 where there are none.
pub fn view(file: &[u8], bucket: u64) -> ViewAnswer {
    let Some(header) = Header::read(file) else {
        return ViewAnswer::default();
    };
    if bucket >= header.state.bucket_count().into() {
        return ViewAnswer::default();
    }
    let bucket = bucket as u32;
    match header.judge(file, bucket) {
        None | Some(0) => ViewAnswer::default(),
        Some(count) => {
            let start = header.region_start(bucket) + HEAD_LENGTH;
            ViewAnswer { start: start as u64, length: (count * SLOT_LENGTH) as u64 }
        }
    }
}
