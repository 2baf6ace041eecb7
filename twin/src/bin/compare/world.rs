//! Sound files and client tables in random states, and fitting arguments.

use twin::file::Header;
use twin::random::Random;
use twin::rules::State;

pub const HEADER_LENGTH: usize = 16;
pub const HEAD_LENGTH: usize = 8;
pub const SLOT_LENGTH: usize = 24;

#[derive(Clone, Copy, Debug)]
pub struct Shape {
    pub capacity: usize,
    pub slots: usize,
    pub most: usize,
}

impl Shape {
    /// Mostly small ones; the greatest seldom.
    pub fn random(random: &mut Random) -> Shape {
        let most = match random.below(1000) {
            0..=7 => 4_096,
            8..=79 => 1,
            80..=199 => 2,
            200..=299 => 1 + random.below(40),
            300..=399 => 64,
            _ => 16,
        };
        let slots = match random.below(20) {
            0..=2 => 1,
            3..=5 => 2,
            6..=10 => 8,
            11..=14 => 64,
            15 => 16 + random.below(3),
            _ => 1 + random.below(64),
        };
        let capacity = match random.below(4) {
            0 => slots,
            1 => 1,
            _ => 1 + random.below(slots),
        };
        Shape { capacity, slots, most }
    }

    pub fn region_length(&self) -> usize {
        HEAD_LENGTH + SLOT_LENGTH * self.slots
    }

    pub fn file_length(&self) -> usize {
        HEADER_LENGTH + self.most * self.region_length()
    }

    /// The bytes of a header in a state.
    pub fn header(&self, state: State) -> [u8; HEADER_LENGTH] {
        let mut bytes = [0; HEADER_LENGTH];
        bytes[..2].copy_from_slice(b"LF");
        bytes[2] = state.level as u8;
        bytes[3] = self.capacity as u8;
        bytes[4..6].copy_from_slice(&(state.pointer as u16).to_le_bytes());
        bytes[6..8].copy_from_slice(&(self.most as u16).to_le_bytes());
        bytes[8] = self.slots as u8;
        bytes
    }
}

/// The state of a file with so many buckets.
pub fn state_of(buckets: usize) -> State {
    let level = buckets.ilog2();
    State { level, pointer: buckets as u32 - (1 << level) }
}

pub fn record_bytes(image: State) -> [u8; 8] {
    let [low, high] = (image.pointer as u16).to_le_bytes();
    [b'L', b'C', image.level as u8, 0, low, high, 0, 0]
}

/// A sound file and a sound table.
pub struct World {
    pub shape: Shape,
    pub file: Vec<u8>,
    pub table: Vec<u8>,
}

impl World {
    pub fn random(random: &mut Random) -> World {
        let shape = Shape::random(random);
        let buckets = random_bucket_count(shape.most, random);
        let file = random_file(&shape, state_of(buckets), random);
        let table = random_table(buckets, random);
        World { shape, file, table }
    }

    pub fn clients(&self) -> usize {
        (self.table.len() / 8).max(1)
    }

    /// The header, if it is sound.
    pub fn header(&self) -> Option<Header> {
        Header::read(&self.file)
    }

    /// The keys of a bucket, as far as its head is to be believed.
    pub fn keys(&self, header: &Header, bucket: u32) -> impl Iterator<Item = u64> + '_ {
        let region = header.region(&self.file, bucket);
        let count = usize::from(u16::from_le_bytes([region[4], region[5]]));
        let slots = region[HEAD_LENGTH..].chunks_exact(SLOT_LENGTH).take(count);
        slots.map(|slot| u64::from_le_bytes(slot[2..10].try_into().expect("eight bytes")))
    }

    /// A key that stands in the file, if a few tries find one.
    fn held_key(&self, random: &mut Random) -> Option<u64> {
        let header = self.header()?;
        for _ in 0..3 {
            let bucket = random.below(header.state.bucket_count() as usize) as u32;
            let count = self.keys(&header, bucket).count();
            if count > 0 {
                return self.keys(&header, bucket).nth(random.below(count));
            }
        }
        None
    }

    /// A key for a call: held, near a held one, small, or any.
    pub fn key(&self, random: &mut Random) -> u64 {
        let held = self.held_key(random);
        match (random.below(20), held) {
            (0..=5, Some(key)) => key,
            (6..=9, Some(key)) => key ^ 1 << random.below(64),
            (10..=12, Some(key)) => key.wrapping_add(1 << (32 + random.below(4))),
            (13..=15, _) => random.below(64) as u64,
            (16, _) => random.number(),
            _ => new_key(random),
        }
    }

    /// A new key for a bucket that one more record makes overfull, if a few tries find one. Half of them are among the
    /// buckets that are not split yet, and the one with the fewest records is taken: there it may not be due.
    fn overfilling_key(&self, random: &mut Random) -> Option<u64> {
        let header = self.header()?;
        let state = header.state;
        let unsplit = state.pointer as usize..1 << state.level;
        let all = 0..state.bucket_count() as usize;
        let tries: [usize; 6] = std::array::from_fn(|number| {
            let among = if number < 3 { &unsplit } else { &all };
            among.start + random.below(among.len())
        });
        let counted = tries.map(|bucket| (self.keys(&header, bucket as u32).count(), bucket as u32));
        let overfilled =
            counted.into_iter().filter(|(count, _)| (header.capacity as usize..header.slots).contains(count));
        let (_, bucket) = overfilled.min()?;
        let level = state.level_of(bucket);
        Some(new_key(random) >> level << level | u64::from(bucket))
    }

    /// A key for an insert with load control.
    pub fn loading_key(&self, random: &mut Random) -> u64 {
        let overfilling = self.overfilling_key(random);
        overfilling.filter(|_| random.chance(2, 3)).unwrap_or_else(|| self.key(random))
    }

    /// The load by a key's bucket with one more record, in percent: where a threshold lets load control turn.
    pub fn turning_threshold(&self, key: u64) -> u64 {
        let Some(header) = self.header() else { return 1 };
        let bucket = header.state.address(key);
        let records = self.keys(&header, bucket).count() as u64 + 1;
        let factor = u64::from(1 + header.state.level_of(bucket) - header.state.level);
        let scaled = (100 * records * factor) << header.state.level;
        scaled / u64::from(header.capacity * header.state.bucket_count())
    }

    pub fn lift(&self, random: &mut Random) -> u32 {
        match self.held_key(random) {
            Some(key) if random.chance(2, 3) => (key >> 32) as u32,
            _ => any_lift(random),
        }
    }

    /// How many keys of the file have a lift.
    pub fn match_count(&self, lift: u32) -> usize {
        let Some(header) = self.header() else { return 0 };
        let buckets = 0..header.state.bucket_count();
        buckets.map(|bucket| self.keys(&header, bucket).filter(|key| (key >> 32) as u32 == lift).count()).sum()
    }
}

fn any_lift(random: &mut Random) -> u32 {
    match random.below(10) {
        0 => random.number() as u32,
        1 => u32::MAX,
        2 => 1 << random.below(32),
        _ => random.below(4) as u32,
    }
}

/// A key of a likely lift and any ride.
fn new_key(random: &mut Random) -> u64 {
    u64::from(any_lift(random)) << 32 | u64::from(random.number() as u32)
}

/// Often the most, or near the most or near a power of two.
fn random_bucket_count(most: usize, random: &mut Random) -> usize {
    let any = 1 + random.below(most);
    let count = match random.below(8) {
        0 => most,
        1 => most - 1,
        2 => 1,
        3 => 1 << any.ilog2(),
        4 => (1 << any.ilog2()) - 1,
        _ => any,
    };
    count.clamp(1, most)
}

fn random_file(shape: &Shape, state: State, random: &mut Random) -> Vec<u8> {
    let mut file = vec![0; shape.file_length()];
    file[..HEADER_LENGTH].copy_from_slice(&shape.header(state));
    let fill = random.below(8);
    let style = KeyStyle::random(random);
    let regions = file[HEADER_LENGTH..].chunks_exact_mut(shape.region_length());
    for (bucket, region) in (0..state.bucket_count()).zip(regions) {
        let count = match fill {
            0 => 0,
            1 => shape.slots,
            2 => shape.capacity,
            3 => shape.slots - random.below(2),
            4 | 5 => (shape.capacity - 1 + random.below(3)).min(shape.slots),
            _ => random.below(shape.slots + 1),
        };
        fill_region(region, bucket, state.level_of(bucket), count, style, random);
    }
    file
}

/// How the keys of a bucket differ: in any bits, in a few bits only, or alike in lift and ride.
#[derive(Clone, Copy)]
enum KeyStyle {
    Any,
    Next,
    FromBit(u32),
    Alike,
}

impl KeyStyle {
    fn random(random: &mut Random) -> KeyStyle {
        match random.below(8) {
            0 => KeyStyle::Next,
            1 => KeyStyle::FromBit(32),
            2 => KeyStyle::FromBit(16 + random.below(43) as u32),
            3 => KeyStyle::Alike,
            _ => KeyStyle::Any,
        }
    }

    /// The upper bits of the key after so many others.
    fn key(self, earlier: usize, level: u32, random: &mut Random) -> u64 {
        match self {
            KeyStyle::Any => new_key(random) >> level << level,
            KeyStyle::Next => (earlier as u64) << level,
            KeyStyle::FromBit(bit) => (earlier as u64) << bit.max(level),
            KeyStyle::Alike => (earlier as u64) << level | (earlier as u64) << level << 32,
        }
    }
}

fn fill_region(region: &mut [u8], bucket: u32, level: u32, count: usize, style: KeyStyle, random: &mut Random) {
    region[..2].copy_from_slice(b"LB");
    region[2] = level as u8;
    region[4..6].copy_from_slice(&(count as u16).to_le_bytes());
    let mut keys: Vec<u64> = Vec::with_capacity(count);
    while keys.len() < count {
        let key = style.key(keys.len(), level, random) + u64::from(bucket);
        if !keys.contains(&key) {
            keys.push(key);
        }
    }
    for (slot, key) in region[HEAD_LENGTH..].chunks_exact_mut(SLOT_LENGTH).zip(keys) {
        slot[..2].copy_from_slice(b"LR");
        slot[2..10].copy_from_slice(&key.to_le_bytes());
        random.fill(&mut slot[10..]);
    }
}

/// Images that are not ahead of a file with so many buckets.
fn random_table(buckets: usize, random: &mut Random) -> Vec<u8> {
    let clients = match random.below(20) {
        0 => 256,
        1 => 1 + random.below(256),
        _ => 1 + random.below(4),
    };
    let image = |_| {
        let believed = match random.below(4) {
            0 => 1,
            1 => 1 + random.below(buckets.min(4)),
            2 => buckets - random.below(buckets.min(2)),
            _ => 1 + random.below(buckets),
        };
        record_bytes(state_of(believed))
    };
    (0..clients).flat_map(image).collect()
}
