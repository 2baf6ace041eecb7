//! Load control: an insert, the decision whether a split is due, and the split, in one call. All of it is planned by
//! reading only; what is written comes last.

use crate::bucket::{self, Payload};
use crate::ride::{self, Answer, Arrival, Route, Stop};
use crate::{reply, NONE};

const HIGHEST_THRESHOLD: u64 = 100;

/// What became of the split.
pub mod outcome {
    pub const NOT_DUE: u32 = 0;
    pub const DONE: u32 = 1;
    pub const NO_ROOM: u32 = 2;
}

#[derive(Clone, Copy, Debug, PartialEq, Eq)]
pub struct LoadAnswer {
    pub reply: u32,
    pub split: u32,
    pub old_bucket: u32,
    pub new_bucket: u32,
}

impl LoadAnswer {
    fn without_split(reply: u8, split: u32) -> LoadAnswer {
        LoadAnswer { reply: reply.into(), split, old_bucket: NONE.into(), new_bucket: NONE.into() }
    }

    fn refused(reply: u8) -> LoadAnswer {
        LoadAnswer::without_split(reply, outcome::NOT_DUE)
    }
}

/// What an accepted insert does besides placing its record.
enum Plan {
    NotDue,
    NoRoom,
    /// Bucket n is split, which holds so many records then.
    Split(usize),
}

/// Whether the load asks for a split after an insert that leaves `count` records in the bucket.
#[inline]
fn due(arrival: &Arrival, count: u32, threshold: u32) -> bool {
    let (state, capacity) = (arrival.header.state, arrival.header.capacity);
    let factor = 1 + arrival.level - state.level;
    count > capacity && (100 * count * factor) << state.level > threshold * capacity * state.bucket_count()
}

/// The plan, or the region of the split that is unsound.
#[inline]
fn plan(arrival: &Arrival, file: &[u8], threshold: u32) -> Result<Plan, u32> {
    let header = &arrival.header;
    let count = arrival.count + 1;
    if !due(arrival, count as u32, threshold) {
        return Ok(Plan::NotDue);
    }
    if !header.has_room() {
        return Ok(Plan::NoRoom);
    }
    let (old_bucket, new_bucket) = header.split_buckets();
    // The key's own bucket is judged already, and gets the record.
    let old_count =
        if old_bucket == arrival.bucket { count } else { header.judge(file, old_bucket).ok_or(old_bucket)? };
    if header.can_be_born(file, new_bucket) {
        Ok(Plan::Split(old_count))
    } else {
        Err(new_bucket)
    }
}

/// Inserts a record by the client's image, and splits if the load then asks for it.
pub fn insert_split(
    file: &mut [u8],
    table: &mut [u8],
    client: u64,
    key: u64,
    payload: &[u8],
    threshold: u64,
    answer: &mut [u8],
) -> LoadAnswer {
    let (Ok(answer), Ok(payload)) = (<&mut Answer>::try_from(answer), <&Payload>::try_from(payload)) else {
        return LoadAnswer::refused(reply::BLOCK_LENGTH);
    };
    if !(1..=HIGHEST_THRESHOLD).contains(&threshold) {
        return LoadAnswer::refused(Route::NONE.refuse(answer, reply::THRESHOLD));
    }
    let arrival = match ride::ride(file, table, client, key) {
        Err(Stop(refusal, route)) => return LoadAnswer::refused(route.refuse(answer, refusal)),
        Ok(arrival) => arrival,
    };
    if let Some(refusal) = arrival.refusal() {
        ride::adjust(table, client, &arrival);
        return LoadAnswer::refused(arrival.route.refuse(answer, refusal));
    }
    let plan = match plan(&arrival, file, threshold as u32) {
        Err(unsound) => {
            let refused = LoadAnswer::refused(arrival.route.refuse(answer, reply::UNSOUND));
            return LoadAnswer { old_bucket: unsound, ..refused };
        }
        Ok(plan) => plan,
    };
    ride::adjust(table, client, &arrival);
    let Arrival { header, route, level, region_start, count, .. } = arrival;
    bucket::place(&mut file[region_start..], level, count, key, payload);
    let reply = route.accept(answer, count + 1);
    match plan {
        Plan::NotDue => LoadAnswer::without_split(reply, outcome::NOT_DUE),
        Plan::NoRoom => LoadAnswer::without_split(reply, outcome::NO_ROOM),
        Plan::Split(old_count) => {
            header.grow(file, old_count);
            let (old_bucket, new_bucket) = header.split_buckets();
            LoadAnswer { reply: reply.into(), split: outcome::DONE, old_bucket, new_bucket }
        }
    }
}
