//! Insert and search: one key's ride from bucket to bucket.

use crate::bucket::{self, Payload};
use crate::client;
use crate::file::Header;
use crate::rules::{self, State};
use crate::{judge, reply};

const ANSWER_LENGTH: usize = 24;
const COUNT: usize = 8;
const PAYLOAD_START: usize = 10;
const NO_PAYLOAD: Payload = [0; bucket::PAYLOAD_LENGTH];

pub type Answer = [u8; ANSWER_LENGTH];

/// The buckets that a key came by, as the answer's first eight bytes have them without the reply: in the second byte
/// how many they are, then three numbers, 65,535 where unused.
#[derive(Clone, Copy)]
pub struct Route(u64);

impl Route {
    pub const NONE: Route = Route(0xFFFF_FFFF_FFFF_0000);

    #[inline]
    fn of_one(bucket: u32) -> Route {
        Route(0xFFFF_FFFF_0000_0100 | u64::from(bucket) << 16)
    }

    #[inline]
    fn is_of_one(self) -> bool {
        self.0 >> 8 & 0xFF == 1
    }

    #[inline]
    fn then(self, bucket: u32) -> Route {
        let unused = 16 + 16 * (self.0 >> 8 & 0xFF);
        Route((self.0 ^ (0xFFFF ^ u64::from(bucket)) << unused) + 0x100)
    }

    /// Fills the answer of a call that refuses.
    #[inline]
    pub fn refuse(self, answer: &mut Answer, reply: u8) -> u8 {
        self.answer(answer, reply, 0, &NO_PAYLOAD)
    }

    /// Fills the answer of an insert that leaves so many records.
    #[inline]
    pub fn accept(self, answer: &mut Answer, count: usize) -> u8 {
        self.answer(answer, reply::DONE, count as u8, &NO_PAYLOAD)
    }

    /// Fills the answer.
    #[inline]
    fn answer(self, answer: &mut Answer, reply: u8, count: u8, payload: &Payload) -> u8 {
        answer[..COUNT].copy_from_slice(&(self.0 | u64::from(reply)).to_le_bytes());
        answer[COUNT..PAYLOAD_START].copy_from_slice(&[count, 0]);
        answer[PAYLOAD_START..].copy_from_slice(payload);
        reply
    }
}

/// A key at the bucket that keeps it.
pub struct Arrival {
    pub header: Header,
    pub route: Route,
    pub bucket: u32,
    pub level: u32,
    pub region_start: usize,
    pub count: usize,
    /// The slot that holds the key; the count if none does.
    holder: usize,
    image: State,
    next_image: State,
}

impl Arrival {
    /// Why an insert is refused here: 8 or 9.
    #[inline]
    pub fn refusal(&self) -> Option<u8> {
        if self.holder < self.count {
            return Some(reply::HELD);
        }
        (self.count == self.header.slots).then_some(reply::FULL)
    }
}

/// A ride that stopped with a refusal 2 to 7.
pub struct Stop(pub u8, pub Route);

/// Rides to the key's bucket, reading only.
#[inline(always)]
pub fn ride(file: &[u8], table: &[u8], client: u64, key: u64) -> Result<Arrival, Stop> {
    let refused = |reply| Stop(reply, Route::NONE);
    let image = client::image_of(table, client).map_err(refused)?;
    let header = Header::read(file).ok_or(refused(reply::HEADER))?;
    if image.bucket_count() > header.state.bucket_count() {
        return Err(refused(reply::AHEAD));
    }
    let mut bucket = image.address(key);
    let mut route = Route::of_one(bucket);
    let mut next_image = image;
    loop {
        let level = header.state.level_of(bucket);
        let region_start = header.region_start(bucket);
        let region = header.region_at(file, region_start);
        let Some(count) = bucket::count_of(region, level) else {
            return Err(Stop(reply::UNSOUND, route));
        };
        let Some(holder) = judge::find(region, count, bucket, level, key) else {
            return Err(Stop(reply::UNSOUND, route));
        };
        let Some(next) = rules::onward(bucket, level, key) else {
            return Ok(Arrival { header, route, bucket, level, region_start, count, holder, image, next_image });
        };
        if route.is_of_one() {
            next_image = image.adjusted(bucket, level);
        }
        bucket = next;
        route = route.then(bucket);
    }
}

#[inline]
pub fn adjust(table: &mut [u8], client: u64, arrival: &Arrival) {
    if arrival.next_image != arrival.image {
        client::write_image(table, client, arrival.next_image);
    }
}

/// Inserts a record by the client's image.
pub fn insert(file: &mut [u8], table: &mut [u8], client: u64, key: u64, payload: &[u8], answer: &mut [u8]) -> u8 {
    let (Ok(answer), Ok(payload)) = (<&mut Answer>::try_from(answer), <&Payload>::try_from(payload)) else {
        return reply::BLOCK_LENGTH;
    };
    let arrival = match ride(file, table, client, key) {
        Err(Stop(refusal, route)) => return route.refuse(answer, refusal),
        Ok(arrival) => arrival,
    };
    adjust(table, client, &arrival);
    if let Some(refusal) = arrival.refusal() {
        return arrival.route.refuse(answer, refusal);
    }
    let Arrival { route, level, region_start, count, .. } = arrival;
    bucket::place(&mut file[region_start..], level, count, key, payload);
    route.accept(answer, count + 1)
}

/// Searches a key by the client's image.
pub fn search(file: &[u8], table: &mut [u8], client: u64, key: u64, answer: &mut [u8]) -> u8 {
    let Ok(answer) = <&mut Answer>::try_from(answer) else {
        return reply::BLOCK_LENGTH;
    };
    let arrival = match ride(file, table, client, key) {
        Err(Stop(refusal, route)) => return route.refuse(answer, refusal),
        Ok(arrival) => arrival,
    };
    adjust(table, client, &arrival);
    let Arrival { route, region_start, count, holder, .. } = arrival;
    if holder == count {
        return route.answer(answer, reply::ABSENT, 0, &NO_PAYLOAD);
    }
    route.answer(answer, reply::DONE, 0, bucket::payload_at(&file[region_start..], holder))
}

/// How often a key was sent on, by its answer block.
pub fn forwards(answer: &[u8]) -> u32 {
    if answer.len() == ANSWER_LENGTH {
        u32::from(answer[1]).saturating_sub(1)
    } else {
        0
    }
}
