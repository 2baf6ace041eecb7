//! The two sides of every comparison: the proved library and the twin.

use crate::{CheckAnswer, LoadAnswer, ScanAnswer, SplitAnswer, ViewAnswer};
use lhstar::raw;

pub type Insert = fn(&mut [u8], &mut [u8], u64, u64, &[u8], &mut [u8]) -> u8;
pub type InsertSplit = fn(&mut [u8], &mut [u8], u64, u64, &[u8], u64, &mut [u8]) -> LoadAnswer;
pub type Search = fn(&[u8], &mut [u8], u64, u64, &mut [u8]) -> u8;
pub type Scan = fn(&[u8], &[u8], u64, u32, &mut [u16], &mut [u64]) -> ScanAnswer;

/// One side's functions.
pub struct Side {
    pub create: fn(&mut [u8], u64, u64, u64) -> u8,
    pub join: fn(&mut [u8], u64) -> u8,
    pub insert: Insert,
    pub search: Search,
    pub split: fn(&mut [u8]) -> SplitAnswer,
    pub insert_split: InsertSplit,
    pub check: fn(&[u8]) -> CheckAnswer,
    pub scan: Scan,
    pub view: fn(&[u8], u64) -> ViewAnswer,
    pub parent: fn(u16) -> u32,
    pub forwards: fn(&[u8]) -> u32,
}

pub const LIBRARY: Side = Side {
    create: raw::create,
    join: raw::join,
    insert: raw::insert,
    search: raw::search,
    split: |file| {
        let raw::SplitAnswer { reply, old_bucket, new_bucket } = raw::split(file);
        SplitAnswer { reply, old_bucket, new_bucket }
    },
    insert_split: |file, table, client, key, payload, threshold, answer| {
        let raw::LoadAnswer { reply, split, old_bucket, new_bucket } =
            raw::insert_split(file, table, client, key, payload, threshold, answer);
        LoadAnswer { reply, split, old_bucket, new_bucket }
    },
    check: |file| {
        let raw::CheckAnswer { reply, bucket } = raw::check(file);
        CheckAnswer { reply, bucket }
    },
    scan: |file, table, client, lift, visited, matched| {
        let raw::ScanAnswer { reply, bucket, visits, matches } = raw::scan(file, table, client, lift, visited, matched);
        ScanAnswer { reply, bucket, visits, matches }
    },
    view: |file, bucket| {
        let raw::ViewAnswer { start, length } = raw::view(file, bucket);
        ViewAnswer { start, length }
    },
    parent: raw::parent,
    forwards: raw::forwards,
};

pub const TWIN: Side = Side {
    create: crate::create,
    join: crate::join,
    insert: crate::insert,
    search: crate::search,
    split: crate::split,
    insert_split: crate::insert_split,
    check: crate::check,
    scan: crate::scan,
    view: crate::view,
    parent: crate::parent,
    forwards: crate::forwards,
};
