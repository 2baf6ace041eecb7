//! One bucket's region: its head, its slots, and what is written in them. `judge` has the judgment over them.

pub const HEAD_LENGTH: usize = 8;
pub const SLOT_LENGTH: usize = 24;
pub const PAYLOAD_LENGTH: usize = 14;
pub const MOST_SLOTS: usize = 64;

pub type Slot = [u8; SLOT_LENGTH];
pub type Payload = [u8; PAYLOAD_LENGTH];

pub const SLOT_MARK: u16 = u16::from_le_bytes(*b"LR");
const HEAD_MARK: u64 = u16::from_le_bytes(*b"LB") as u64;
const COUNT_SHIFT: u32 = 32;
const COUNT_BITS: u64 = 0xFFFF << COUNT_SHIFT;
const KEY_START: usize = 2;
const PAYLOAD_START: usize = 10;

/// Eight bytes as a number.
#[inline]
pub fn word(bytes: &[u8]) -> u64 {
    let mut word = [0; 8];
    word.copy_from_slice(bytes);
    u64::from_le_bytes(word)
}

/// Whether all bytes are zero; the length is a multiple of eight.
#[inline]
pub fn all_zero(bytes: &[u8]) -> bool {
    let words = bytes.chunks_exact(8).map(word);
    words.fold(0, |seen, word| seen | word) == 0
}

/// A head's eight bytes as one number.
#[inline]
fn head_of(level: u32, count: usize) -> u64 {
    HEAD_MARK | u64::from(level) << 16 | (count as u64) << COUNT_SHIFT
}

#[inline]
pub fn write_head(region: &mut [u8], level: u32, count: usize) {
    region[..HEAD_LENGTH].copy_from_slice(&head_of(level, count).to_le_bytes());
}

/// The count in a head, whatever else is in it.
#[inline]
fn count_in(head: u64) -> usize {
    usize::from((head >> COUNT_SHIFT) as u16)
}

/// The count in a region's head, if the head is sound.
#[inline]
pub fn count_of(region: &[u8], level: u32) -> Option<usize> {
    let head = word(&region[..HEAD_LENGTH]);
    let count = count_in(head);
    (head & !COUNT_BITS == head_of(level, 0) && slot_start(count) <= region.len()).then_some(count)
}

/// Where a slot starts in its region.
#[inline]
fn slot_start(slot: usize) -> usize {
    HEAD_LENGTH + slot * SLOT_LENGTH
}

/// A region's slots, used and unused.
#[inline]
pub fn slots_of(region: &[u8]) -> &[Slot] {
    region[HEAD_LENGTH..].as_chunks().0
}

/// The slots in use of a sound bucket.
#[inline]
pub fn used_slots(region: &[u8]) -> &[Slot] {
    &slots_of(region)[..count_in(word(&region[..HEAD_LENGTH]))]
}

#[inline]
fn slots_mut(region: &mut [u8]) -> &mut [Slot] {
    region[HEAD_LENGTH..].as_chunks_mut().0
}

/// A slot's first eight bytes: the mark, and all of the key but its upper two bytes.
#[inline]
pub fn start_of(slot: &Slot) -> u64 {
    word(&slot[..8])
}

#[inline]
pub fn key_of(slot: &Slot) -> u64 {
    word(&slot[KEY_START..PAYLOAD_START])
}

/// The key in a slot.
#[inline]
pub fn key_at(region: &[u8], slot: usize) -> u64 {
    word(&region[slot_start(slot) + KEY_START..slot_start(slot) + PAYLOAD_START])
}

/// The payload in a slot.
#[inline]
pub fn payload_at(region: &[u8], slot: usize) -> &Payload {
    region[slot_start(slot) + PAYLOAD_START..].first_chunk().expect("the slot is in the region")
}

/// Places a record behind the `count` records of a bucket.
#[inline]
pub fn place(region: &mut [u8], level: u32, count: usize, key: u64, payload: &Payload) {
    let slot = &mut slots_mut(region)[count];
    slot[..KEY_START].copy_from_slice(&SLOT_MARK.to_le_bytes());
    slot[KEY_START..PAYLOAD_START].copy_from_slice(&key.to_le_bytes());
    slot[PAYLOAD_START..].copy_from_slice(payload);
    write_head(region, level, count + 1);
}

/// Divides a bucket: records with the bit of `level` set move to the newborn
/// region, which is zero, and both become of the level above. Each record is
/// written behind both groups, without a branch, and only one group grows.
pub fn divide(old: &mut [u8], newborn: &mut [u8], count: usize, level: u32) {
    let (old_slots, new_slots) = (slots_mut(old), slots_mut(newborn));
    let (mut kept, mut moved) = (0, 0);
    for slot in 0..count {
        let moves = (key_of(&old_slots[slot]) >> level & 1) as usize;
        let record = old_slots[slot];
        new_slots[moved] = record;
        old_slots[kept] = record;
        moved += moves;
        kept += 1 - moves;
    }
    old_slots[kept..count].fill([0; SLOT_LENGTH]);
    if moved < count {
        new_slots[moved] = [0; SLOT_LENGTH];
    }
    write_head(old, level + 1, kept);
    write_head(newborn, level + 1, moved);
}
