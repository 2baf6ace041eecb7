//! The judgment over a bucket's slots, and what is looked for on the way. The bucket's head is known to be sound, and
//! says the count of the slots in use.

use crate::bucket::{all_zero, key_of, slots_of, start_of, Slot, SLOT_MARK};

/// Whether all slots are sound.
#[inline]
pub fn sound(region: &[u8], count: usize, bucket: u32, level: u32) -> bool {
    slots_sound(region, count, Rule::of(bucket, level), |_, _| ())
}

/// If all slots are sound, the one that holds a key; the count if none does.
#[inline]
pub fn find(region: &[u8], count: usize, bucket: u32, level: u32, key: u64) -> Option<usize> {
    let mut place = count;
    let look = |number, held| {
        if held == key {
            place = number;
        }
    };
    slots_sound(region, count, Rule::of(bucket, level), look).then_some(place)
}

/// If all slots are sound, a bit for each in use whose key is of a lift, the first slot's the lowest.
#[inline]
pub fn matching(region: &[u8], count: usize, bucket: u32, level: u32, lift: u32) -> Option<u64> {
    let mut bits = 0;
    let look = |number, held| bits |= u64::from(lift_of(held) == lift) << number;
    slots_sound(region, count, Rule::of(bucket, level), look).then_some(bits)
}

#[inline]
pub fn lift_of(key: u64) -> u32 {
    (key >> 32) as u32
}

/// What each slot in use has: the mark, and a key whose lower bits are the bucket's number.
#[derive(Clone, Copy)]
struct Rule {
    bucket: u64,
    lower_bits: u64,
}

impl Rule {
    #[inline]
    fn of(bucket: u32, level: u32) -> Rule {
        Rule { bucket: bucket.into(), lower_bits: (1 << level) - 1 }
    }

    /// Zero if a slot with this key keeps the rule.
    #[inline]
    fn broken_by(self, slot: &Slot, key: u64) -> u64 {
        let mark = start_of(slot) & 0xFFFF;
        (mark ^ u64::from(SLOT_MARK)) | ((key ^ self.bucket) & self.lower_bits)
    }
}

const FEW_SLOTS: usize = 8;

/// Whether each slot in use keeps the rule, no key stands twice, and the other slots are zero; `look` sees each slot in
/// use by its number and its key.
#[inline]
fn slots_sound(region: &[u8], count: usize, rule: Rule, look: impl FnMut(usize, u64)) -> bool {
    let (used, unused) = slots_of(region).split_at(count);
    let used_sound = if count <= FEW_SLOTS { few_sound(used, rule, look) } else { many_sound(used, rule, look) };
    used_sound && all_zero(unused.as_flattened())
}

/// Few keys are compared with one another.
#[inline]
fn few_sound(used: &[Slot], rule: Rule, mut look: impl FnMut(usize, u64)) -> bool {
    for (number, slot) in used.iter().enumerate() {
        let key = key_of(slot);
        look(number, key);
        if rule.broken_by(slot, key) != 0 || used[..number].iter().any(|earlier| key_of(earlier) == key) {
            return false;
        }
    }
    true
}

// At most one place in sixteen is taken.
const PLACES: usize = 1024;
const MIX: u64 = 0x9E37_79B9_7F4A_7C15;

/// Each slot takes the first free place from its key's mixed bits on, so an equal key before it is met on the way
/// there. A place has one more than the slot, or 0.
#[inline]
fn many_sound(used: &[Slot], rule: Rule, mut look: impl FnMut(usize, u64)) -> bool {
    let mut places = [0u8; PLACES];
    let mut wrong = 0;
    for (number, slot) in used.iter().enumerate() {
        let key = key_of(slot);
        wrong |= rule.broken_by(slot, key);
        look(number, key);
        let mut place = (key.wrapping_mul(MIX) >> (64 - PLACES.ilog2())) as usize;
        while places[place] != 0 {
            if key_of(&used[usize::from(places[place]) - 1]) == key {
                return false;
            }
            place = (place + 1) % PLACES;
        }
        places[place] = number as u8 + 1;
    }
    wrong == 0
}
