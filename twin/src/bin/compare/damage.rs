//! Damage to a case's file, table, blocks, lists and figures, in each way that
//! a sentence of the documents names.

use crate::call::{Call, Lent};
use crate::world::{record_bytes, state_of, Shape, HEADER_LENGTH, HEAD_LENGTH, SLOT_LENGTH};
use twin::file::Header;
use twin::random::Random;
use twin::rules::State;

/// What of a case is damaged.
#[derive(Clone, Copy, Debug)]
pub enum Aim {
    Block,
    TableLength,
    ClientNumber,
    ClientRecord,
    OtherRecord,
    HeaderByte,
    OddFigures,
    FileLength,
    Bucket,
    PastRegion,
    Lists,
    BucketNumber,
    Figures,
}

/// What a call's damage is aimed at, and how often.
fn aims(call: &Call) -> &'static [(usize, Aim)] {
    match call {
        Call::Insert { .. } | Call::Search { .. } => &[
            (1, Aim::Block),
            (1, Aim::TableLength),
            (1, Aim::ClientNumber),
            (3, Aim::ClientRecord),
            (1, Aim::OtherRecord),
            (2, Aim::HeaderByte),
            (1, Aim::OddFigures),
            (1, Aim::FileLength),
            (7, Aim::Bucket),
            (1, Aim::PastRegion),
        ],
        Call::InsertSplit { .. } => &[
            (1, Aim::Block),
            (1, Aim::TableLength),
            (1, Aim::ClientNumber),
            (3, Aim::ClientRecord),
            (1, Aim::OtherRecord),
            (2, Aim::HeaderByte),
            (1, Aim::OddFigures),
            (1, Aim::FileLength),
            (10, Aim::Bucket),
            (5, Aim::PastRegion),
        ],
        Call::Scan { .. } => &[
            (4, Aim::Lists),
            (1, Aim::TableLength),
            (1, Aim::ClientNumber),
            (2, Aim::ClientRecord),
            (1, Aim::OtherRecord),
            (2, Aim::HeaderByte),
            (1, Aim::OddFigures),
            (1, Aim::FileLength),
            (4, Aim::Bucket),
            (1, Aim::PastRegion),
        ],
        Call::Split | Call::Check => {
            &[(2, Aim::HeaderByte), (1, Aim::OddFigures), (1, Aim::FileLength), (4, Aim::Bucket), (2, Aim::PastRegion)]
        }
        Call::View { .. } => &[
            (1, Aim::HeaderByte),
            (1, Aim::OddFigures),
            (1, Aim::FileLength),
            (4, Aim::Bucket),
            (1, Aim::PastRegion),
            (1, Aim::BucketNumber),
        ],
        Call::Join { .. } => &[(1, Aim::TableLength), (1, Aim::ClientNumber), (1, Aim::ClientRecord)],
        Call::Create { .. } => &[(1, Aim::Figures)],
        Call::Forwards => &[(1, Aim::Block)],
        Call::Parent { .. } => &[],
    }
}

fn random_aim(call: &Call, random: &mut Random) -> Option<Aim> {
    let aims = aims(call);
    let whole: usize = aims.iter().map(|(share, _)| share).sum();
    if whole == 0 {
        return None;
    }
    let mut left = random.below(whole);
    let aim = aims.iter().find(|(share, _)| {
        let here = left < *share;
        left = left.wrapping_sub(*share);
        here
    });
    aim.map(|&(_, aim)| aim)
}

/// One way in which a case was damaged: the aim, and a number for the way.
pub type Way = (Aim, usize);

/// Damages a case in one way.
pub fn damage(call: &mut Call, lent: &mut Lent, match_count: usize, random: &mut Random) -> Option<Way> {
    let aim = random_aim(call, random)?;
    let way = match aim {
        Aim::Block => damage_blocks(lent, random),
        Aim::TableLength => damage_table_length(lent, random),
        Aim::ClientNumber => damage_client_number(call, lent, random),
        Aim::ClientRecord => damage_record(call.client(), lent, random),
        Aim::OtherRecord => damage_other_record(call.client(), lent, random),
        Aim::HeaderByte => damage_header(lent, random),
        Aim::OddFigures => write_odd_figures(lent, random),
        Aim::FileLength => damage_file_length(lent, random),
        Aim::Bucket => damage_buckets(call, lent, random),
        Aim::PastRegion => damage_past_region(call, lent, random),
        Aim::Lists => damage_lists(lent, match_count, random),
        Aim::BucketNumber => damage_bucket_number(call, lent, random),
        Aim::Figures => damage_figures(call, lent, random),
    };
    Some((aim, way))
}

fn flip(bytes: &mut [u8], at: usize, random: &mut Random) -> usize {
    if let Some(byte) = bytes.get_mut(at) {
        *byte ^= random.some_bits();
    }
    at
}

fn number_at(bytes: &[u8], at: usize) -> usize {
    usize::from(u16::from_le_bytes([bytes[at], bytes[at + 1]]))
}

fn put_number(bytes: &mut [u8], at: usize, number: usize) {
    bytes[at..at + 2].copy_from_slice(&(number as u16).to_le_bytes());
}

fn damage_blocks(lent: &mut Lent, random: &mut Random) -> usize {
    let lengths = [0, 1, 13, 14, 15, 16, 23, 24, 25, 48];
    let way = random.below(3);
    if way != 0 {
        lent.answer.resize(random.pick(&lengths), 0x5A);
    }
    if way != 1 {
        lent.payload.resize(random.pick(&lengths), 0xA5);
    }
    way
}

fn damage_table_length(lent: &mut Lent, random: &mut Random) -> usize {
    let old = lent.table.len();
    let some = random.below(2_100);
    let lengths =
        [0, 1, 4, 7, 9, 2_040, 2_047, 2_048, 2_049, 2_052, 2_056, 4_096, old + 1, old + 4, old.saturating_sub(1), some];
    let way = random.below(lengths.len());
    lent.table.resize(lengths[way], 0);
    lengths[way]
}

fn damage_client_number(call: &mut Call, lent: &Lent, random: &mut Random) -> usize {
    let old = call.client().unwrap_or(0);
    let records = (lent.table.len() / 8) as u64;
    let numbers = [
        records,
        records + 1,
        records.wrapping_sub(1),
        256,
        above(old, 8),
        above(old, 16),
        above(old, 29),
        above(old, 32),
        1 << 32,
        above(old, 61),
        1 << 63,
        u64::MAX,
        u64::MAX - 7,
        random.number(),
    ];
    let way = random.below(numbers.len());
    call.set_client(numbers[way]);
    way
}

/// Where a client's record stands, if it is there whole.
fn record_of(client: u64, table: &mut [u8]) -> Option<&mut [u8]> {
    table.chunks_exact_mut(8).nth(usize::try_from(client).ok()?)
}

fn damage_record(client: Option<u64>, lent: &mut Lent, random: &mut Random) -> usize {
    let buckets = Header::read(&lent.file).map_or(1, |header| header.state.bucket_count() as usize);
    let Some(record) = client.and_then(|client| record_of(client, &mut lent.table)) else {
        return 0;
    };
    let level = record[2];
    let way = 1 + random.below(14);
    match way {
        1 => _ = flip(record, 0, random),
        2 => _ = flip(record, 1, random),
        3 => record[2] = random.pick(&[12, 13, 14, 16, 31, 32, 63, 64, 128, 255, level.wrapping_add(1)]),
        4 => _ = flip(record, 3, random),
        5 => _ = flip(record, 6, random),
        6 => _ = flip(record, 7, random),
        7 if level < 16 => put_number(record, 4, (1 << level) + random.below(2)),
        8 => put_number(record, 4, 65_535 - random.below(2)),
        9 => {
            let image = State { level: 12, pointer: random.pick(&[1, 2, 4_095, 4_096, 4_097]) };
            record.copy_from_slice(&record_bytes(image));
        }
        10 => record.copy_from_slice(&record_bytes(State { level: 12 + random.below(2) as u32, pointer: 0 })),
        11 => record.copy_from_slice(&record_bytes(state_of(buckets))),
        12 => record.copy_from_slice(&record_bytes(state_of((buckets + 2 + random.below(40)).min(8_191)))),
        13 => record[4] = random.number() as u8,
        _ => record.copy_from_slice(&record_bytes(state_of(buckets + 1))),
    }
    way
}

/// Another client's record, which the call must neither judge nor touch.
fn damage_other_record(client: Option<u64>, lent: &mut Lent, random: &mut Random) -> usize {
    let records = lent.table.len() / 8;
    if records == 0 {
        return 0;
    }
    let other = random.below(records) as u64;
    if client != Some(other) {
        damage_record(Some(other), lent, random);
    }
    1
}

fn damage_header(lent: &mut Lent, random: &mut Random) -> usize {
    let Some(head) = lent.file.get_mut(..HEADER_LENGTH) else {
        return 0;
    };
    let (level, pointer, most, slots) = (head[2], number_at(head, 4), number_at(head, 6), head[8]);
    let power = 1usize << (level % 16);
    let way = 1 + random.below(13);
    match way {
        1 => _ = flip(head, 0, random),
        2 => _ = flip(head, 1, random),
        3 => head[2] = random.pick(&[255, 128, 64, 63, 32, 31, 16, 14, 13, 12, 11]),
        4 => head[2] = near_level(level, random),
        5 => head[3] = random.pick(&[0, slots.wrapping_add(1), slots, 64, 65, 255]),
        6 => {
            let room = most.wrapping_sub(power);
            let numbers = [power, power + 1, 65_535, room, room.wrapping_add(1), pointer + 1, pointer ^ 256];
            put_number(head, 4, random.pick(&numbers));
        }
        7 => put_number(head, 4, random.below(power + 1)),
        8 => put_number(head, 6, random.pick(&[0, most + 1, most.wrapping_sub(1), 4_096, 4_097, 65_535, most + 256])),
        9 => head[8] = random.pick(&[0, slots.wrapping_add(1), slots.wrapping_sub(1), 64, 65, 255]),
        10 => {
            let state = state_of(1 + random.below(most.max(1)));
            head[2] = state.level as u8;
            put_number(head, 4, state.pointer as usize);
        }
        _ => return 20 + flip(head, 9 + random.below(7), random),
    }
    way
}

/// A whole file whose length is right for figures at and past their limits.
fn write_odd_figures(lent: &mut Lent, random: &mut Random) -> usize {
    let shapes = [
        (0, 1, 2),
        (2, 1, 2),
        (1, 1, 2),
        (1, 0, 3),
        (0, 0, 3),
        (64, 65, 1),
        (65, 65, 2),
        (64, 64, 1),
        (65, 64, 1),
        (255, 255, 1),
        (1, 1, 0),
        (1, 1, 1),
        (2, 3, 5),
        (1, 1, 4_096),
        (1, 1, 4_097),
        (1, 1, 65_535),
    ];
    let way = match random.below(200) {
        0 => 15,
        1..=3 => 14,
        4..=6 => 13,
        _ => random.below(13),
    };
    let (capacity, slots, most) = shapes[way];
    let shape = Shape { capacity, slots, most };
    let state = State { level: 0, pointer: 0 };
    lent.file.clear();
    lent.file.extend_from_slice(&shape.header(state));
    lent.file.resize(shape.file_length(), 0);
    for (place, byte) in lent.file.iter_mut().skip(HEADER_LENGTH).zip(*b"LB") {
        *place = byte;
    }
    way
}

fn damage_file_length(lent: &mut Lent, random: &mut Random) -> usize {
    let old = lent.file.len();
    let region = lent.file.get(8).map_or(8, |&slots| HEAD_LENGTH + SLOT_LENGTH * usize::from(slots));
    let lengths = [
        0,
        1,
        8,
        15,
        16,
        17,
        random.below(32),
        old.saturating_sub(1),
        old.saturating_sub(8),
        old.saturating_sub(SLOT_LENGTH),
        old.saturating_sub(region),
        old + 1,
        old + 8,
        old + region,
    ];
    let way = random.below(lengths.len());
    lent.file.resize(lengths[way], 0);
    way
}

/// A bucket that the call is likely to need.
fn needed_bucket(call: &Call, lent: &mut Lent, header: &Header, random: &mut Random) -> u32 {
    let buckets = header.state.bucket_count();
    let any = random.below(buckets as usize) as u32;
    match *call {
        Call::InsertSplit { .. } if random.chance(1, 2) => header.state.pointer,
        Call::Insert { client, key } | Call::InsertSplit { client, key, .. } | Call::Search { client, key } => {
            match random.below(6) {
                0 => any,
                1 | 2 => first_bucket(client, key, &mut lent.table).filter(|&bucket| bucket < buckets).unwrap_or(any),
                _ => header.state.address(key),
            }
        }
        Call::Split if random.chance(5, 6) => header.state.pointer,
        Call::View { bucket } if bucket < buckets.into() && random.chance(5, 6) => bucket as u32,
        _ => any,
    }
}

/// The bucket that a client's image gives a key.
fn first_bucket(client: u64, key: u64, table: &mut [u8]) -> Option<u32> {
    let record = record_of(client, table)?;
    let (level, pointer) = (u32::from(record[2]), number_at(record, 4) as u32);
    (level <= 12).then(|| State { level, pointer }.address(key))
}

/// One bucket; for a scan sometimes several, since it names the first.
fn damage_buckets(call: &Call, lent: &mut Lent, random: &mut Random) -> usize {
    if matches!(call, Call::Scan { .. }) && random.chance(1, 3) {
        for _ in 0..1 + random.below(4) {
            damage_bucket(call, lent, random);
        }
    }
    damage_bucket(call, lent, random)
}

fn damage_bucket(call: &Call, lent: &mut Lent, random: &mut Random) -> usize {
    let Some(header) = Header::read(&lent.file) else {
        return 0;
    };
    let bucket = needed_bucket(call, lent, &header, random);
    let region = header.region_mut(&mut lent.file, bucket);
    let count = number_at(region, 4).min(header.slots);
    if random.chance(1, 3) {
        damage_head(region, header.slots, random)
    } else if count > 0 && random.chance(2, 3) {
        damage_used_slot(region, count, header.state.level_of(bucket), random)
    } else {
        damage_unused_slot(region, count, random)
    }
}

fn near_level(level: u8, random: &mut Random) -> u8 {
    let any = random.below(14) as u8;
    random.pick(&[level.wrapping_add(1), level.wrapping_sub(1), 0, 255, any])
}

fn damage_head(region: &mut [u8], slots: usize, random: &mut Random) -> usize {
    let (level, count) = (region[2], number_at(region, 4));
    let way = 1 + random.below(7);
    match way {
        1 => _ = flip(region, 0, random),
        2 => _ = flip(region, 1, random),
        3 => region[2] = near_level(level, random),
        4 => _ = flip(region, 3, random),
        5 => _ = flip(region, 6, random),
        6 => _ = flip(region, 7, random),
        _ => {
            let any = random.below(70);
            let numbers = [slots + 1, slots, 0, count + 1, count.wrapping_sub(1), count + 256, 65_535, 65, any];
            put_number(region, 4, random.pick(&numbers));
        }
    }
    way
}

fn slot_start(slot: usize) -> usize {
    HEAD_LENGTH + slot * SLOT_LENGTH
}

fn damage_used_slot(region: &mut [u8], count: usize, level: u32, random: &mut Random) -> usize {
    let slot = random.below(count);
    let start = slot_start(slot);
    let way = 10 + random.below(8);
    match way {
        10 => _ = flip(region, start, random),
        11 => _ = flip(region, start + 1, random),
        // A key that does not belong here; the highest bit of the level is the finest fault.
        12 if level > 0 => region[start + 2 + (level as usize - 1) / 8] ^= 1 << ((level - 1) % 8),
        13 if level > 0 => {
            let bit = random.below(level as usize);
            region[start + 2 + bit / 8] ^= 1 << (bit % 8);
        }
        // The same key twice.
        14..=16 => {
            let from = slot_start(random.below(count)) + 2;
            region.copy_within(from..from + 8, start + 2);
        }
        // A slot in use that is all zero.
        17 => region[start..start + SLOT_LENGTH].fill(0),
        // Any byte of the slot.
        _ => _ = flip(region, start + random.below(SLOT_LENGTH), random),
    }
    way
}

fn damage_unused_slot(region: &mut [u8], count: usize, random: &mut Random) -> usize {
    let start = slot_start(count);
    let room = region.len() - start;
    if room == 0 {
        return 20;
    }
    match random.below(6) {
        0 => flip(region, start, random),
        1 => flip(region, region.len() - 1, random),
        // A well formed slot past the count.
        2 => {
            region[start..start + 2].copy_from_slice(b"LR");
            21
        }
        3 if count > 0 => {
            region.copy_within(start - SLOT_LENGTH..start, start);
            22
        }
        _ => flip(region, start + random.below(room), random),
    }
}

/// Dirt in a region past the last bucket.
fn damage_past_region(call: &Call, lent: &mut Lent, random: &mut Random) -> usize {
    let Some(header) = Header::read(&lent.file) else {
        return 0;
    };
    let buckets = header.state.bucket_count();
    if buckets == header.most {
        return 1;
    }
    let newborn = header.region_start(buckets);
    let region_end = header.region_start(buckets + 1);
    let aimed_end = match call {
        Call::Split | Call::InsertSplit { .. } if random.chance(3, 4) => region_end,
        _ => lent.file.len(),
    };
    match random.below(6) {
        0 => _ = flip(&mut lent.file, newborn, random),
        1 => _ = flip(&mut lent.file, region_end - 1, random),
        2 => {
            let last = lent.file.len() - 1;
            flip(&mut lent.file, last, random);
        }
        3 => {
            let level = header.state.level + 1;
            lent.file[newborn..newborn + 3].copy_from_slice(&[b'L', b'B', level as u8]);
        }
        _ => _ = flip(&mut lent.file, newborn + random.below(aimed_end - newborn), random),
    }
    2
}

/// Lists too short, by one or by more.
fn damage_lists(lent: &mut Lent, match_count: usize, random: &mut Random) -> usize {
    let buckets = Header::read(&lent.file).map_or(1, |header| header.state.bucket_count() as usize);
    let way = random.below(5);
    match way {
        0 => lent.visits.truncate(buckets - 1),
        1 => lent.visits.truncate(random.below(buckets)),
        2 => lent.matches.truncate(match_count.saturating_sub(1)),
        3 => lent.matches.truncate(random.below(match_count + 1)),
        _ => lent.matches.clear(),
    }
    way
}

fn damage_bucket_number(call: &mut Call, lent: &Lent, random: &mut Random) -> usize {
    let buckets = Header::read(&lent.file).map_or(1, |header| u64::from(header.state.bucket_count()));
    let Call::View { bucket } = call else {
        return 0;
    };
    let numbers = [buckets, buckets + 1, buckets - 1, 4_096, 65_535, above(*bucket, 16), above(*bucket, 32), u64::MAX];
    let way = random.below(numbers.len());
    *bucket = numbers[way];
    way
}

fn damage_figures(call: &mut Call, lent: &mut Lent, random: &mut Random) -> usize {
    let Call::Create { capacity, slots, most } = call else {
        return 0;
    };
    let way = random.below(6);
    match way {
        0 => *capacity = odd_figure(*capacity, *slots, random),
        1 => *slots = odd_figure(*slots, 64, random),
        2 => *most = odd_figure(*most, 4_096, random),
        3 => return 10 + damage_file_length(lent, random),
        4 => {
            write_odd_figures(lent, random);
            *capacity = u64::from(lent.file[3]);
            *slots = u64::from(lent.file[8]);
            *most = number_at(&lent.file, 6) as u64;
        }
        // Figures whose product wraps to the very length.
        _ => match random.below(3) {
            0 => *most = most.wrapping_add(1 << 61),
            1 => *slots = slots.wrapping_add(1 << 61),
            _ => {
                *most = most.wrapping_add(1 << 63);
                *slots = slots.wrapping_add(1 << 63);
            }
        },
    }
    way
}

/// The number with a power of two added, which a narrower number would not show.
fn above(number: u64, power: u32) -> u64 {
    number.wrapping_add(1 << power)
}

fn odd_figure(old: u64, limit: u64, random: &mut Random) -> u64 {
    let numbers = [
        0,
        limit,
        limit.wrapping_add(1),
        old.wrapping_add(1),
        old.wrapping_sub(1),
        above(old, 8),
        above(old, 16),
        above(old, 32),
        u64::MAX,
        1 << 63,
    ];
    random.pick(&numbers)
}
