//! The rules of LH*, over numbers only.

use crate::NONE;

/// The lower `level` bits of a key.
#[inline]
pub fn hash(level: u32, key: u64) -> u32 {
    (key & ((1 << level) - 1)) as u32
}

/// A level and a split pointer: the file's own, or a client's image of it.
#[derive(Clone, Copy, Debug, PartialEq, Eq)]
pub struct State {
    pub level: u32,
    pub pointer: u32,
}

impl State {
    /// The state, with a pointer that reached the end of its level carried over.
    pub fn carried(level: u32, pointer: u32) -> State {
        if pointer < 1 << level {
            State { level, pointer }
        } else {
            State { level: level + 1, pointer: 0 }
        }
    }

    #[inline]
    pub fn bucket_count(self) -> u32 {
        (1 << self.level) + self.pointer
    }

    /// The bucket that this state gives a key.
    #[inline]
    pub fn address(self, key: u64) -> u32 {
        let size = 1 << self.level;
        let low = key as u32 & (size - 1);
        let wide = key as u32 & (2 * size - 1);
        if low < self.pointer {
            wide
        } else {
            low
        }
    }

    /// The level that this state gives a bucket.
    #[inline]
    pub fn level_of(self, bucket: u32) -> u32 {
        let split = bucket < self.pointer || bucket >= 1 << self.level;
        self.level + u32::from(split)
    }

    /// The image after a bucket of the given level did not keep a key.
    pub fn adjusted(self, bucket: u32, level: u32) -> State {
        if level > self.level {
            State::carried(level - 1, bucket + 1)
        } else {
            self
        }
    }

    /// The state after one split.
    pub fn grown(self) -> State {
        State::carried(self.level, self.pointer + 1)
    }
}

/// Where a bucket sends a key on to; nothing if it keeps the key.
#[inline]
pub fn onward(bucket: u32, level: u32, key: u64) -> Option<u32> {
    let far = hash(level, key);
    if far == bucket {
        return None;
    }
    let near = hash(level - 1, key);
    Some(if bucket < near && near < far { near } else { far })
}

/// The bucket whose split gave birth to this one, which is above 0.
#[inline]
pub fn origin(bucket: u32) -> u32 {
    bucket - (1 << bucket.ilog2())
}

/// The bucket whose split gave birth to this one; none for bucket 0.
pub fn parent(bucket: u16) -> u32 {
    if bucket == 0 {
        u32::from(NONE)
    } else {
        origin(bucket.into())
    }
}
