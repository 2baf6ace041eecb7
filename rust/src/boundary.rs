//! The library's C boundary, as `include/lhstar.h` declares it.

use crate::raw::{CheckAnswer, LoadAnswer, ScanAnswer, SplitAnswer, ViewAnswer};

unsafe extern "C" {
    pub fn lhstar_create(file: *mut u8, file_length: usize, capacity: u64, slots: u64, most: u64) -> u8;
    pub fn lhstar_join(table: *mut u8, table_length: usize, client: u64) -> u8;
    pub fn lhstar_insert(
        file: *mut u8,
        file_length: usize,
        table: *mut u8,
        table_length: usize,
        client: u64,
        key: u64,
        payload: *const u8,
        payload_length: usize,
        answer: *mut u8,
        answer_length: usize,
    ) -> u8;
    pub fn lhstar_search(
        file: *const u8,
        file_length: usize,
        table: *mut u8,
        table_length: usize,
        client: u64,
        key: u64,
        answer: *mut u8,
        answer_length: usize,
    ) -> u8;
    pub fn lhstar_split(file: *mut u8, file_length: usize) -> SplitAnswer;
    pub fn lhstar_insert_split(
        file: *mut u8,
        file_length: usize,
        table: *mut u8,
        table_length: usize,
        client: u64,
        key: u64,
        payload: *const u8,
        payload_length: usize,
        threshold: u64,
        answer: *mut u8,
        answer_length: usize,
    ) -> LoadAnswer;
    pub fn lhstar_check(file: *const u8, file_length: usize) -> CheckAnswer;
    pub fn lhstar_scan(
        file: *const u8,
        file_length: usize,
        table: *const u8,
        table_length: usize,
        client: u64,
        lift: u32,
        visits: *mut u16,
        visits_length: usize,
        matches: *mut u64,
        matches_length: usize,
    ) -> ScanAnswer;
    pub fn lhstar_view(file: *const u8, file_length: usize, bucket: u64) -> ViewAnswer;
    pub safe fn lhstar_parent(bucket: u16) -> u32;
    pub fn lhstar_forwards(answer: *const u8, answer_length: usize) -> u32;
}
